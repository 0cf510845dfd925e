"""Modules for maintainers: rows, sweeps and counts of the tests, documents, and the syntax of proof files.
tools/install does not install this package."""

"""Circuits as equations between named signals, for texts that people read."""

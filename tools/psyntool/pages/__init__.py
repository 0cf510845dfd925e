"""A page for a browser, in one file, on which a user plays by buttons against a circuit. The module `contents` makes
the data that `rules.js` reads, `drawing` makes the pictures, and `writing` writes the file."""

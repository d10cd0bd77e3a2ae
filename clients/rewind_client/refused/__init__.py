"""Reads a source that Rewind refused, as far as it takes to say what is wrong in it."""

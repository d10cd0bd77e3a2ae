"""Clients of `rewind`: its process, its replies, and what they tell of a program, as data and in sentences."""

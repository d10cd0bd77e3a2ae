"""Hostile sources, commands and devices, and memory that is refused."""

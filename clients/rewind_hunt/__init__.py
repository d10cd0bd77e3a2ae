"""Hunts for schedules of a program that end badly: `rewind-hunt`."""

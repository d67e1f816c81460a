"""Tries of the example: three machines on the loopback range, what happens to them, and what has to hold behind that."""

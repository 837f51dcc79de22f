"""Readings of what is documented, written apart from the program, with which it is compared."""

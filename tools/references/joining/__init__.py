"""Explores a script over the simulated kernel in Python, and joins histories that come to the same tables."""

"""The simulated kernel in Python, slow and by its documents alone, and what `step` answers over it."""

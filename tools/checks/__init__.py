"""What the gate runs, and longer trials of the same kinds."""

"""What rules decide of all calls, by brute force: how two policies differ, which claims hold, and what rules are for nothing."""

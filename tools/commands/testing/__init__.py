"""Test files: what they say of calls and containers, the scripts that are made of it, and how the program's answers compare with what is expected."""

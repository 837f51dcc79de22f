"""Shares of a work that several machines do, and what joins their results."""

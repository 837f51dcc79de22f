"""Trials of a broker as it is that would harm the machine, and of calls that real brokers make (tools/checks/check-guard)."""

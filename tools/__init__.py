"""The command's tools, the checks of the gate, independent readings, and what keeps generated pages up to date."""

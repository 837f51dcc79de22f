"""Tries a broker in every order of steps within a bound of delays, on the simulated kernel, with the judge beside it (docs/YOUR_BROKER.md)."""

"""A judge of brokers: whether one mediated, by the events of a session of `step` (docs/YOUR_BROKER.md). It isn't proved."""

"""What tools/commands/package makes packages of."""

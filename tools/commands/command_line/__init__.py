"""The command seccomp-broker: the table of its words, and what is made of the table."""

"""What the tools for real workloads share: traces of strace, filters of profiles and processes, and the scripts that are made of them."""

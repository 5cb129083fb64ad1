"""Real repositories: what stands in one, and what is changed in one."""

"""The commands for who works on this repository, one module each."""

"""The commands that users run, one module each."""

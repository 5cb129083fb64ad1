"""The scripts that made expected values, one module each. They import nothing of this package but each other."""

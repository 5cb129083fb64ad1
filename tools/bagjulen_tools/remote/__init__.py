"""Fetches, clones and mirrors of real remotes by the engine, told in Git's words."""

"""What trials of the engine need: random repositories and input, what has to come of it, and where Git differs."""

"""The commands that try the engine or compare it with real Git, one module each."""

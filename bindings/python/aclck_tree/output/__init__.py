"""What all parts use: the errors that end a run, how answers look, and files that are opened or replaced."""

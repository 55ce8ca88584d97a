"""The command line: the words of the program and their options."""

"""What a snapshot holds, and how it is written and read."""

"""The command `policy`: which objects of a snapshot break a rule."""

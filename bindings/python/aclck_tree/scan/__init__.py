"""The commands `scan` and `merge`: a tree, a list of paths or an archive is read into a snapshot."""

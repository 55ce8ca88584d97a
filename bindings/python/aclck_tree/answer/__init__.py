"""What lists grant, to whom and why, and how two lists compare: the commands `who`, `may`, `why`, `same` and `info`."""

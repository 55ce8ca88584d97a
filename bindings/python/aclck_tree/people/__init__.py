"""Who is asked about: accounts, people and their groups."""

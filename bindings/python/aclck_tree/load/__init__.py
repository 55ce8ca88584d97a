"""The command `load`: snapshots in a database of PostgreSQL."""

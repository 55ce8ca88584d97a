"""The command `diff`: what changed between two snapshots, and for whom."""

"""Scans and questions on the workers of a cluster."""

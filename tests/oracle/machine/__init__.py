"""Disks whose calls fail or are stopped, commands on them, and orders of threads' steps."""

"""Volumes by the LUKS2 On-Disk Format Specification 1.1."""

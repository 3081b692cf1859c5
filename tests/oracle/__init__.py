"""A second implementation of what the rows show, which judges them (README.md)."""

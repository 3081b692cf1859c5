"""The server, by the NBD protocol document."""

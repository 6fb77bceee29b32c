"""Clients in other processes of the same machine, over a socket in the file system."""

"""The proxy's process, and what it writes."""

"""The command `zanteyard`, the daemon `zanteyard serve`, and its metrics. examples/postgres_live.py
also runs `audit.py`."""

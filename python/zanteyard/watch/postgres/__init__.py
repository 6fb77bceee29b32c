"""What `watch` needs of a PostgreSQL: its settings, its tables, and connections to it."""

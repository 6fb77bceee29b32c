"""A violated round, taken apart and explained with what the application ran."""

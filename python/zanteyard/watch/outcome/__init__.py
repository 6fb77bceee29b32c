"""What is known of an audit: its state, its totals, and its end in words."""

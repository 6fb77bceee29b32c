"""What is shown: pages, metrics, saved files, and the server for them."""

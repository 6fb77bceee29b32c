"""The lines of the auditor, stored as scripts (docs/FORMATS.md), and runs of them."""

"""Turns histories that other tools have saved into scripts (docs/HISTORIES.md)."""

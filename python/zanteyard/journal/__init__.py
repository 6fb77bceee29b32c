"""The file by which an audit continues after its process or machine has failed (docs/OPERATION.md):
its records, their contents, and when they are written."""

"""One client's transactions, numbered and logged over any store; and how the sessions of one
process pause together for a fence."""

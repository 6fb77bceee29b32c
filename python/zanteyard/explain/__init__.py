"""Reduces a violated history to a small part and explains why no order fits it: as sentences, as a
script, as a page and as pictures. The verdict doesn't depend on any of this."""

"""Makes files of this repository again: cases, tables of events, pictures."""

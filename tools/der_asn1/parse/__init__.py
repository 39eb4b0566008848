"""The notation: its lexical items, its grammar, and what is read as data."""

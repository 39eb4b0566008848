"""What tools/generate writes, a subject a module."""

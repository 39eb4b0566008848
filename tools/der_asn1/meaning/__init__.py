"""What the types of modules are: names, values and constraints resolved, and which type of the library each type is."""

"""The files of a crate."""

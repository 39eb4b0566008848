"""Types as tables of nodes, which crates/der_schema has as data: written for a crate, read again, and printed as notation."""

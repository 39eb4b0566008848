"""Types that a file of Rust has, with what they need written next to it."""

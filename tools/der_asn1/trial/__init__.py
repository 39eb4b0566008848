"""What the written types read, in comparison with other programs, without a proof."""

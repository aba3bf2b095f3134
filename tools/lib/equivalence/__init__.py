"""Whether the C of a step computes what its listing does."""

"""Properties for all inputs: a design as a transition system, the queries on it, and the answers of solvers."""

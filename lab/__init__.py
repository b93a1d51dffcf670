"""A simulator: two agents over a simulated network, in simulated time."""

"""A plain model of the repair, written apart from the program: what it may answer, and one of its answers."""

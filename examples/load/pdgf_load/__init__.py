"""Loads the tables of a pdgf schema into databases, and replays what its units do to them."""

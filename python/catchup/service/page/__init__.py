"""The page: what it is drawn from, and the paths that it asks."""

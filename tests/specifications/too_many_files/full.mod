module full.

module kinds.

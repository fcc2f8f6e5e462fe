sig accumulates.

module accumulates.
accum_sig a.

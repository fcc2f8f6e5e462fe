sig a.
accum_sig a, none.

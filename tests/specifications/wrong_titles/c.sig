sig c.
accum_sig a.

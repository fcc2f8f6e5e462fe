sig deep.
accum_sig two.

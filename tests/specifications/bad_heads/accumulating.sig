sig accumulating.
accum_sig second.

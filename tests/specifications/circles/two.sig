sig two.
accum_sig three.

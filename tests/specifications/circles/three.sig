sig three.
kind i type.
accum_sig two.

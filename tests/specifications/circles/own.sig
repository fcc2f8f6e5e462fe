sig own.
kind i type.
accum_sig own.

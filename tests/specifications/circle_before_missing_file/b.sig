sig b.
accum_sig none, b.

sig b.
accum_sig folder.

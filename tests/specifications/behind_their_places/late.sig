sig late.
type a i.
accum_sig missing.

sig late.
accum_sig nat.
type q nat -> o.

sig right.
accum_sig base.
type q i -> o.

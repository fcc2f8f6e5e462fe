sig left.
accum_sig base.
type p i -> o.

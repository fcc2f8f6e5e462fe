sig early.
type a i.
type p i -> o.
accum_sig other.

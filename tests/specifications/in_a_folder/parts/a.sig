sig a.
kind i type.
type a i.
type p i -> o.
accum_sig c.

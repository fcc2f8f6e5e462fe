sig two.
kind i type.
type p o.

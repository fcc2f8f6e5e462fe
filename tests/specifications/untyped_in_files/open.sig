sig open.
kind i type.
type p o.

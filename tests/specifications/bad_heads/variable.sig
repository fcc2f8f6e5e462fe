sig variable.
type p o.

sig conjunction.
type p o.

sig last.
type p, q o.

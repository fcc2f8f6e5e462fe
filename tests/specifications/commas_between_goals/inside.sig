sig inside.
type q, r o.
type p o -> o.

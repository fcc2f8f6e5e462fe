sig goals.
kind i type.
type p, q, r o.
type all (i -> o) -> o.

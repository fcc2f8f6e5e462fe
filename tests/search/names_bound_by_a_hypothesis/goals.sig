sig goals.
kind i type.
type k i.
type a, b, h, q o.
type p, r i -> o.
type t i -> i -> o.
type g o -> o.
type w (o -> o) -> o.

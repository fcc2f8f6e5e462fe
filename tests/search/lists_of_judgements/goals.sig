sig goals.
kind i type.
type a, b, c i.
type f i -> i.
type p, q i -> o.
type r i -> i -> o.
type m, n o.
type h i -> (i -> i) -> o.
type k o -> o.
type ev (i -> o) -> o.

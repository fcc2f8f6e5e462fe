sig lists.
kind i type.
type c, d i.
type f i -> i.
type p, q i -> o.
type r i -> i -> o.
type every (i -> o) -> o.
type both o.

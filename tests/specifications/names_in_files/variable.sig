sig variable.
kind i type.
type p i -> o.

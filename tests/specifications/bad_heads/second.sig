sig second.
kind i type.
type p i -> o.

sig more.
type q i -> o.

sig more.
type b i.
type q i -> o.

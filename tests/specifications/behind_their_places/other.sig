sig other.
type b i.

sig declared.
type b i.
type a i.

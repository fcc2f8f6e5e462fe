sig string.
type a "i.

sig types.
kind i type.
type a i -> j.

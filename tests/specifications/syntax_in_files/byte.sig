sig byte.
kind i type.
type a $ i.

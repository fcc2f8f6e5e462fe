sig constant.
kind i type.
type a i.
type i, a i.

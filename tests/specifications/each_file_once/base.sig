sig base.
kind i type.
type a i.

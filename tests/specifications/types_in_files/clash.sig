sig clash.
kind i, j type.
type a i.
type p j -> o.

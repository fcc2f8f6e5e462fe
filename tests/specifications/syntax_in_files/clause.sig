sig clause.
kind i type.
type a i.
type p i -> o.

sig clause_in.
kind i type.
type a i.
type p i -> o.

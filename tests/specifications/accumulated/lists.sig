sig lists.
accum_sig nat.
kind lst type.
type nl lst.
type cn nat -> lst -> lst.
type all lst -> o.

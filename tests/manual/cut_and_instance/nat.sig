sig nat.
kind nat type.
type z nat.
type s nat -> nat.
type is_nat nat -> o.
type plus nat -> nat -> nat -> o.

sig other.
kind nat type.
type z nat.

sig result.
kind i type.
type p i -> prop.

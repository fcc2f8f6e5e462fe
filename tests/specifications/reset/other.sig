sig other.
kind nat type.

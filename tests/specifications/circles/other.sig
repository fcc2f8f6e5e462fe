sig other.

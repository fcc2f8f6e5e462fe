module other.

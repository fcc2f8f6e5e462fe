module other.
accumulate third.

module accumulating.
p X.
accumulate second.

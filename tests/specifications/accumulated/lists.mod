module lists.
accumulate nat.
all nl.
all (cn N L) :- is_nat N, all L.

module late.
accumulate nat.
q z.
q (s N) :- q N.
q nat.

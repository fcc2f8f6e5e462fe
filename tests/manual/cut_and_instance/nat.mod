module nat.
is_nat z.
is_nat (s N) :- is_nat N.
plus z N N.
plus (s M) N (s K) :- plus M N K.

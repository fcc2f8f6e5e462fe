module lists.
q X :- p X.
r X X.
r X Y :- r X Z, r Z Y.
p (f X) :- p X, q Y.
every P :- pi x\ P x.
both :- pi x\ (p x => q x), q c & p d.
q (f Y) :- pi z\ p z => r Y z.

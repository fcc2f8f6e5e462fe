module goals.
p a.
q X :- p X.
r X Y :- p X, q Y.
q (f X) :- q X, m => p X.
k G :- G.
ev P :- pi x\ P x.
n :- q X, p X.

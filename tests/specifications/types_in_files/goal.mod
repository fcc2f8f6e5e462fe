module goal.
p a :- a.

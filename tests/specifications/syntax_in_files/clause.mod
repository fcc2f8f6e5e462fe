module clause.
p a :- .

module second.
p X.
p X :- p X.
pi x\ p x.

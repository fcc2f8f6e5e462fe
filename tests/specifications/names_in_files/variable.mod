module variable.
p X.
p n1.

module variable.
X :- p.

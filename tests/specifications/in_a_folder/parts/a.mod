module a.
p a.

module conjunction.
p.
p & p.

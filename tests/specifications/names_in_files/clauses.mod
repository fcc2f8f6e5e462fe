module clauses.
p a.
p b.

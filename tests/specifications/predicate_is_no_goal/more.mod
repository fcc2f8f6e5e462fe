module more.
q a :- p a.

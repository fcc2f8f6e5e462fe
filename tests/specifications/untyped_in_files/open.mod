module open.
p.
p :- pi x\ p.

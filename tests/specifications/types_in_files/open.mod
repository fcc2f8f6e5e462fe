module open.
p :- pi x\ pi y\ x = y.

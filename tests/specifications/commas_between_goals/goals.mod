module goals.
p :- (q, r), pi x\ (q, r).
p :- pi x\ q, r.

module two.
p.
pi x\ p.

module inside.
p (q, r).

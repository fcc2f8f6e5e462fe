module p.
p a.

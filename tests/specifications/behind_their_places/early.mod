module early.
p a.

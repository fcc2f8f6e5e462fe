module left.
accumulate base.
p a.

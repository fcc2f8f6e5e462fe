module right.
accumulate base.
q a.

module more.
q a.
q b :- q a.

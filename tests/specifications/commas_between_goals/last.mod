module last.
p :- q,.

module clash.
p X.
p a.

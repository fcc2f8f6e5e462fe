module pq. q X :- p X.

sig pq. kind i type. type c i. type p, q i -> o.

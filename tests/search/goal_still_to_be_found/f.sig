sig f. type a o.

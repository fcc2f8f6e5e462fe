sig f.
kind .

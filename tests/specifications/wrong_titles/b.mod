module a.

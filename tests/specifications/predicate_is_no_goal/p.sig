sig p.

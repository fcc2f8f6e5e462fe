kind i type.

sig again.
kind i type.
kind i type.

sig kinds.
kind i, j, i type.

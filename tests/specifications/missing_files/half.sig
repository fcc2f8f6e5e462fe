sig half.
kind i type.

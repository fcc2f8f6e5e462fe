sig b.
kind i type.

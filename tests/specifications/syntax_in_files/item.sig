sig item.
kind i type.
p a.

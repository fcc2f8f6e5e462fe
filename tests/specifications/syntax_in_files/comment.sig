sig comment.
/* kind i type.

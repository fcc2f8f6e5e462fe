sig ends.
kind i type
module again.

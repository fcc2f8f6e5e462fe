sig kinds.
kind i. kind
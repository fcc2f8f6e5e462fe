sig half.

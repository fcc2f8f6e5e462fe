module signatures.

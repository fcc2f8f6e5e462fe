module types.

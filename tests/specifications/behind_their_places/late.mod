module late.

sig parts.

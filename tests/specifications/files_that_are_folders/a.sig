sig a.

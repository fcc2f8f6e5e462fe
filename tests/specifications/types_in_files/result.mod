module result.

module longest.

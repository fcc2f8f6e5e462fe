module modules.
accumulate other.

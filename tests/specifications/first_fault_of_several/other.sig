sig other.
accum_sig good.
kind I type.

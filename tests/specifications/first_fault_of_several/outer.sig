sig outer.
accum_sig inner.
kind I type.

sig top.
accum_sig left, right.

module half.
accumulate half.

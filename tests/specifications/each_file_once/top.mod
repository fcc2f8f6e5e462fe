module top.
accumulate left, right, base.

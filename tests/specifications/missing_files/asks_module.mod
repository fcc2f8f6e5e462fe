module asks_module.
accumulate half.

sig asks_module.

sig modules.

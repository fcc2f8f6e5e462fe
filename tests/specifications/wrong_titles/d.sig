sig e.
$ no item
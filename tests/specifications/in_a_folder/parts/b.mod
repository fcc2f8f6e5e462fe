module b.

module f. a.

module base.

sig c.

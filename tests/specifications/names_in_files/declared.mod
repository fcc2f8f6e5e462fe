module declared.

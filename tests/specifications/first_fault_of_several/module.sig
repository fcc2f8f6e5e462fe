module module.

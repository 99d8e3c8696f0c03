"""The commands, a module each: options, steps in order, status."""

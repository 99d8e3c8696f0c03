"""Trials of the modules that all commands share, by their own functions."""

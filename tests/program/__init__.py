"""Trials of the built program."""

"""Trials of the built program over real files."""

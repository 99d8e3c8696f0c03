"""Trials of what the pages show: manual pages, recipes, README."""

"""Checks of the source: its layout, its pages, its language."""

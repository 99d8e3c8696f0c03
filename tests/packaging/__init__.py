"""Trials of installing and packing."""

"""Configurations with what is to be said of them."""

"""The tests of the whole repository: their parts, how these are counted, and what they cost."""

"""The lines of aide_lines as values, and values as texts for people."""

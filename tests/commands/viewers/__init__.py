"""Trials of the commands that show a report in other forms: lines of JSON, and a page."""

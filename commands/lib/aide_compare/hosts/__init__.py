"""The databases of many hosts: fetched, kept, compared, and read for one report."""

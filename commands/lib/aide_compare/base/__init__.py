"""What every other layer stands on: escapes, statuses, files by descriptor, rights, processes,
options, times."""

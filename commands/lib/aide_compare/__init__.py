"""What the commands of aide-compare share. Python 3.9 or later, standard library alone."""

VERSION = "0.1.0"

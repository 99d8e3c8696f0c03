"""Tests of the program, the commands, their pages and packages, and the source; run at the top."""
from tests.lib.signals import heed

heed()

"""Trials of the commands. Some import modules of them: those that the gate has compiled, or else
those of this repository, beside which no byte code is written."""
import os
import sys

from tests.lib.copies import COMPILED
from tests.lib.scratch import TOP

sys.path.insert(0, os.path.join(os.environ.get(COMPILED) or TOP + "/commands", "lib"))
sys.dont_write_bytecode = True

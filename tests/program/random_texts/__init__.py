"""Random databases, configurations and command lines, sound and faulty."""

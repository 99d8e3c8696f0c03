"""Tools for the source, and the gate. Run as `python3 -m tools.GROUP.NAME` at the top."""

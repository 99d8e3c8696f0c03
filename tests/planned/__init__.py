"""Runs and sessions whose devices fail by a plan, each beside the definitions in tests/oracle."""

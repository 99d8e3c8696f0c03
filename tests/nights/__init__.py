"""Nights of real machines: made, booted, and compared with the commands as they are installed."""

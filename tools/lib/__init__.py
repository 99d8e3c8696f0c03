"""What tools share: their arguments."""

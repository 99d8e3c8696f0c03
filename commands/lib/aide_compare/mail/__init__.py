"""Messages, the ways to send them, and the queue."""

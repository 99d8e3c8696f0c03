"""What people read: the first lines of a mail, the page, and answers from a state."""

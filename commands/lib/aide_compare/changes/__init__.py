"""What both databases say of a changed entry, and how much the change matters."""

"""What the trials share: the program as a user starts it, its journals, and its clients."""

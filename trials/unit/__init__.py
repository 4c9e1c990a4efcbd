"""Unit tests of what the trials share: they need no program."""

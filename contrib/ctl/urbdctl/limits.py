"""The limits of the tables of a journal, written by `tools/constants.py`."""
from __future__ import annotations

# The most bytes that a payload has in the older table.
LONGEST_IN_FIRST = 1024

# The most bytes that a payload has in the table that takes new records.
LONGEST_IN_SECOND = 16384

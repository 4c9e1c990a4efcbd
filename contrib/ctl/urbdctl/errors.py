"""What a command tells its user in a sentence, and the statuses of commands."""
from __future__ import annotations

OK, FAULT, MISUSE = 0, 1, 3


class Trouble(Exception):
    """A command can't do what was asked; the text says why. Its status is 1, or `status`."""

    def __init__(self, text: str, status: int = FAULT) -> None:
        super().__init__(text)
        self.status = status

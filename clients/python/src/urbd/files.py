"""Small files that hold one JSON value, and survive a stop at any moment."""
from __future__ import annotations

import json
import os
from typing import Any

from urbd.errors import Stopped


def keep(path: str, value: Any) -> None:
    """Writes a value to a file. If the program stops meanwhile, the file has the old value or the
    new one, never a part of it."""
    with open(path + ".new", "w", encoding="utf-8") as file:
        json.dump(value, file)
        file.flush()
        os.fsync(file.fileno())
    os.replace(path + ".new", path)
    folder = os.open(os.path.dirname(os.path.abspath(path)), os.O_RDONLY)
    try:
        os.fsync(folder)
    finally:
        os.close(folder)


def kept(path: str) -> Any:
    """The value that `keep` wrote to this file; None if there is no such file. `Stopped` if it is
    another kind of file."""
    try:
        with open(path, encoding="utf-8") as file:
            return json.load(file)
    except FileNotFoundError:
        return None
    except ValueError:  # no JSON, or no text
        raise Stopped(f"{path} isn't a file that a client has kept") from None

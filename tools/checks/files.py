"""Who changes files. Each call that can change or remove one stands in the table, with its place.

No clause says which files a program leaves alone. So the calls of the standard library that change
files are named in as few places as can be, and this table holds that.
"""
from __future__ import annotations

import re
from collections import Counter
from collections.abc import Iterator, Mapping

from tools.checks.calls import misplaced_calls, without_comments
from tools.tree import Misfit, Tree

# The calls that change a file or a folder, or open one for writing.
CALLS = (
    "remove_file",
    "remove_dir",
    "remove_dir_all",
    "rename",
    "hard_link",
    "set_len",
    "set_permissions",
    "write_at",
    "create_dir",
    "create_dir_all",
    "OpenOptions::new",
    "File::create",
    "fs::write",
    "fs::copy",
)
CALL = re.compile(r"(?<!fn )\b(" + "|".join(map(re.escape, CALLS)) + r")\(")
# The places by call and file: how many there are.
PLACES: Mapping[tuple[str, str], int] = {
    # the socket of a node: one that an ended program left, or the group's own at its end
    ("remove_file", "crates/urb_daemon/src/socket_files.rt"): 1,
    # who may connect to a new socket
    ("set_permissions", "crates/urb_daemon/src/socket_files.rt"): 1,
    # what replaces a closed standard stream, once for reading and once for writing
    ("OpenOptions::new", "crates/urb_daemon/src/standard_streams.rt"): 2,
    # makes a new journal's file, for its owner alone; a file that exists is left as it is
    ("OpenOptions::new", "crates/urb_folder/src/node_journal.rt"): 1,
    # a copy in memory of a journal's bytes
    ("write_at", "crates/urb_folder/src/foreign_journals.rt"): 1,
    # looks whether a file is in the way; it opens for reading alone
    ("OpenOptions::new", "crates/urb_folder/src/obstacle.rt"): 1,
    # a journal that was closed leaves no log
    ("remove_file", "crates/urb_sqlite/src/journal_close.rt"): 1,
    # a node's own file, which the database writes through
    ("set_len", "crates/urb_sqlite/src/node_file.rt"): 1,
    ("write_at", "crates/urb_sqlite/src/node_file.rt"): 1,
}


def calls_in(text: str) -> Counter[str]:
    """How often a source calls each of them. Methods count, definitions don't."""
    return Counter(CALL.findall(without_comments(text)))


def changes_of_files(
    tree: Tree, places: Mapping[tuple[str, str], int] = PLACES
) -> Iterator[Misfit]:
    """Each call that may change a file is in the table."""
    yield from misplaced_calls(tree, calls_in, places, "files")

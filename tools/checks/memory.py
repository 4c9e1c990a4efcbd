"""Who says that memory was refused, without a refused allocation in hand.

`NoMemory` has a private field, so that a body can't make it from nothing. The toolchain's
`AllocError` and `AllocFailed` are public, and `NoMemory` follows from them. So each place that
names one of them as a value stands in this table, with its reason.
"""
from __future__ import annotations

import re
from collections.abc import Iterator, Mapping

from tools.tree import Misfit, Tree

# The places by file: how many there are.
PLACES: Mapping[str, int] = {
    # a thread can't be made
    "crates/urb_daemon/src/error_output.rt": 1,
    # the allocator of tests refuses, and so do tests of what a refusal shows
    "crates/urb_refusing/src/lib.rt": 1,
    "crates/urb_cli_tests/src/tests/clients.rt": 1,
    "crates/urb_cli_tests/src/tests/streams.rt": 1,
    # a failed write to memory, whose error has no allocation in it
    "crates/urb_cli/src/client/refused_write.rt": 1,
    "crates/urb_script/src/answer_words.rt": 1,
    # a refused copy of an entry, and a list that can't grow: the kit's trait asks for this type
    "crates/urb_show/src/published_lists.rt": 2,
    # the history is full, and the writer gives the operation back: both come without an error
    "crates/urb_show/src/publisher.rt": 2,
    # a row gives the value back
    "crates/urb_window/src/windows.rt": 1,
    # a channel's own refusal
    "crates/urb_desk/src/worker_gone.rt": 1,
}
# `Err(AllocError)`, `from(AllocError)`, `return AllocError`, `AllocFailed { .. }`, and so on. In a
# type one of `<`, `,`, `:`, `&` and a blank stands before the name.
VALUE = re.compile(r"\(\s*Alloc(?:Error|Failed)\b|(?:return|=>|=)\s*Alloc(?:Error|Failed)\b")
MADE = re.compile(r"\bAllocFailed\s*(?:::\s*<[^>]*>)?\s*\{")
COMMENT = re.compile(r"//.*")


def values_in(text: str) -> int:
    """How often a source names one of the two as a value."""
    code = COMMENT.sub("", text)
    return len(VALUE.findall(code)) + len(MADE.findall(code))


def refusals_from_nothing(tree: Tree, places: Mapping[str, int] = PLACES) -> Iterator[Misfit]:
    """Each place that names the toolchain's refusal as a value is one of the table's."""
    for path in tree.sources():
        name = tree.name_of(path)
        count, told = values_in(path.read_text()), places.get(name, 0)
        if count != told:
            yield Misfit(
                name, f"names AllocError or AllocFailed as a value {count} times, and not {told}"
            )
    for name in places:
        if not tree.has(name):
            yield Misfit(name, "is in the table of refused memory, but isn't there")

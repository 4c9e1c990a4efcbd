"""Publishes the lines of an input, and continues after a stop with the first line that isn't done.

The publisher's file has how many lines are done and a digest of them, so an input is known again by
its beginning."""
from __future__ import annotations

from collections.abc import Iterator
from typing import BinaryIO

from urbd.client import Publisher
from urbd.errors import Stopped
from urbd.progress import InputMark


def publish_lines(publisher: Publisher, source: BinaryIO, is_same: bool) -> Iterator[int]:
    """Publishes each line of `source`, without its line end, and yields its number at the node.

    With `is_same` the input is the one of an earlier run: the lines that the file says are done are
    skipped. If it begins otherwise, and the earlier input had ended, it is a new input; if that had
    not ended, `Stopped` is raised. Without `is_same` it is a new input, like that of a pipe.
    """
    publisher.finish()
    if is_same:
        mark = skip_done(source, publisher.input_mark)
    else:
        mark = InputMark()
    if mark != publisher.input_mark:
        publisher.set_input_mark(mark)
    for line in source:
        yield publisher.publish_line(line.rstrip(b"\n"))
    ended = publisher.input_mark
    publisher.set_input_mark(InputMark(ended.lines, ended.digest, True))


def skip_done(source: BinaryIO, done: InputMark) -> InputMark:
    """Reads over the lines that are done, and returns their mark. If these aren't the input's first
    lines, an input that had ended gives way to this one, which begins at its first line.
    """
    mark = InputMark()
    while mark.lines < done.lines:
        line = source.readline()
        if not line:
            break
        mark = mark.after(line.rstrip(b"\n"))
    if (mark.lines, mark.digest) == (done.lines, done.digest):
        return mark
    if not done.is_ended:
        raise Stopped(
            f"the input doesn't begin with the {done.lines} lines that are done: give the same "
            "input again, or say that it is a new one"
        )
    if not source.seekable():
        raise Stopped("the input is another one than before, and can't be read from its beginning")
    source.seek(0)
    return InputMark()

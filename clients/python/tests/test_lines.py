"""`publish_lines`: an input that is given again is continued, and no line is published twice."""
from __future__ import annotations

import io
import json
import unittest
from typing import BinaryIO

from tests.over_a_group import OverAGroup, refusal
from urbd import Stopped, keep, kept
from urbd.errors import RefusedError
from urbd.lines import publish_lines
from urbd.simulation import Trouble

FIVE = b"a\nb\nc\nd\ne\n"


class Pipe(io.BytesIO):
    """An input that can't be read again."""

    def seekable(self) -> bool:
        return False


class AnInput(OverAGroup):
    def published(self, source: BinaryIO, is_same: bool = True, stop_after: int = 99) -> list[int]:
        """The numbers that come, of at most so many lines; then the program stops."""
        publisher, seqs = self.publisher(patience=0), []
        try:
            for seq in publish_lines(publisher, source, is_same):
                seqs.append(seq)
                if len(seqs) == stop_after:
                    break
        finally:
            publisher.abandon()
        return seqs

    def test_it_continues_with_the_first_line_that_is_not_done(self) -> None:
        self.assertEqual(self.published(io.BytesIO(FIVE), stop_after=2), [1, 2])
        self.assertEqual(self.published(io.BytesIO(FIVE), stop_after=1), [3])
        self.assertEqual(self.published(Pipe(FIVE)), [4, 5])
        self.assertEqual(self.payloads(), FIVE.split())

    def test_a_line_whose_answer_is_lost_is_published_once(self) -> None:
        troubles: list[Trouble] = ["lose", "close", 15]
        for trouble in troubles:
            self.published(io.BytesIO(FIVE), stop_after=1)
            self.group.nodes[0].troubles = [trouble]
            with self.assertRaises((OSError, RefusedError)):
                self.published(io.BytesIO(FIVE))
        self.published(io.BytesIO(FIVE))
        self.assertEqual(self.payloads(), FIVE.split())

    def test_an_input_that_ended_is_not_published_again_and_goes_on_if_it_grew(
        self,
    ) -> None:
        self.published(io.BytesIO(FIVE))
        self.assertEqual(self.published(io.BytesIO(FIVE)), [])
        self.assertEqual(self.published(io.BytesIO(FIVE + b"f\n")), [6])

    def test_another_input_follows_one_that_ended(self) -> None:
        self.published(io.BytesIO(FIVE))
        self.assertEqual(self.published(io.BytesIO(b"a\nx\n")), [6, 7])
        self.assertEqual(self.payloads()[5:], [b"a", b"x"])

    def test_another_input_amid_one_stops(self) -> None:
        self.published(io.BytesIO(FIVE), stop_after=3)
        for other in (b"a\nb\nx\nd\n", b"a\nb\n", b""):
            with self.subTest(other), self.assertRaisesRegex(Stopped, "the 3 lines that are done"):
                self.published(io.BytesIO(other))
        self.assertEqual(self.payloads(), [b"a", b"b", b"c"])

    def test_an_input_that_is_new_is_published_whole(self) -> None:
        self.published(io.BytesIO(FIVE), stop_after=3)
        self.assertEqual(self.published(Pipe(b"a\nb\n"), is_same=False), [4, 5])
        self.assertEqual(self.published(Pipe(b"a\nb\nc\n"), is_same=True), [6])

    def test_other_messages_of_the_publisher_do_not_count(self) -> None:
        self.published(io.BytesIO(FIVE), stop_after=2)
        publisher = self.publisher()
        publisher.publish(b"between")
        publisher.abandon()
        self.assertEqual(self.published(io.BytesIO(FIVE)), [4, 5, 6])

    def test_a_line_that_a_full_node_refuses_is_not_done(self) -> None:
        self.group.cap = 2
        self.assertEqual(refusal(lambda: self.published(io.BytesIO(FIVE))), (8, 0))
        self.group.cap = 9
        self.assertEqual(self.published(io.BytesIO(FIVE)), [3, 4, 5])

    def test_an_older_file_has_no_line_done(self) -> None:
        old = {"port": self.port, "client": 7, "number": 0, "payload": "", "done": True}
        keep(self.path, old)
        self.assertEqual(self.published(io.BytesIO(FIVE), stop_after=1), [1])
        self.assertEqual(json.loads(json.dumps(kept(self.path)))["lines"], 0)

    def test_the_last_line_may_lack_its_end(self) -> None:
        self.assertEqual(self.published(io.BytesIO(b"a\n\nb")), [1, 2, 3])
        self.assertEqual(self.payloads(), [b"a", b"", b"b"])


if __name__ == "__main__":
    unittest.main()

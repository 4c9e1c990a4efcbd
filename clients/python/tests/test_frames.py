"""The codec against the bytes of docs/FORMATS.md."""
from __future__ import annotations

import unittest

from urbd.constants import MAX_PAYLOAD
from urbd.errors import BadReply, RefusedError
from urbd.frames import (
    MOST_MILLIS,
    Accepted,
    BadRequest,
    Crash,
    Done,
    Entries,
    Entry,
    GetStatus,
    Read,
    Refused,
    Request,
    Response,
    Restart,
    Status,
    Submit,
    Wait,
    decode_request,
    decode_response,
    encode_request,
    encode_response,
    expect,
    frame,
)

HI = Entry(1, 1, 7, 1, b"hi")
REQUESTS: list[tuple[Request, str]] = [
    (Submit(7, 1, b"hi"), "0009010007000000016869"),
    (Read(1, 8), "0006020000000108"),
    (Wait(1, 8, 1000), "000806000000010803e8"),
    (GetStatus(), "000103"),
    (Crash(), "000104"),
    (Restart(), "000105"),
    (Submit(7, 3, b""), "000701000700000003"),
]
RESPONSES: list[tuple[Response, str]] = [
    (Accepted(1), "00058100000001"),
    (Entries((HI,)), "00118201010000000100070000000100026869"),
    (Entries(()), "00028200"),
    (Status("ready", 1, 1), "000a83010000000100000001"),
    (Done(), "000184"),
    (Refused(7, 2), "0006ee0700000002"),
]


class TheCodec(unittest.TestCase):
    def test_the_longest_wait(self) -> None:
        self.assertEqual(MOST_MILLIS, 65_535)
        self.assertEqual(encode_request(Wait(1, 8, MOST_MILLIS)).hex(), "060000000108ffff")
        with self.assertRaises(ValueError):
            encode_request(Wait(1, 8, MOST_MILLIS + 1))

    def test_requests_have_the_bytes_of_the_formats(self) -> None:
        for request, text in REQUESTS:
            with self.subTest(request):
                self.assertEqual(frame(encode_request(request)).hex(), text)
                self.assertEqual(decode_request(bytes.fromhex(text)[2:]), request)

    def test_responses_have_the_bytes_of_the_formats(self) -> None:
        for response, text in RESPONSES:
            with self.subTest(response):
                self.assertEqual(frame(encode_response(response)).hex(), text)
                self.assertEqual(decode_response(bytes.fromhex(text)[2:]), response)

    def test_what_is_no_request_has_the_code_of_its_first_fault(self) -> None:
        for text, code in (
            ("", 1),
            ("00" * 16601, 1),
            ("09", 2),
            ("00", 2),
            ("0100070000", 3),
            ("0200000001", 3),
            ("0600000001080000ff", 3),
            ("0300", 3),
            ("01000000000001", 4),
            ("020000000008", 4),
            ("020000000109", 4),
            ("020000000100", 4),
            ("0600000000080000", 4),
        ):
            with self.subTest(text[:20]), self.assertRaises(BadRequest) as bad:
                decode_request(bytes.fromhex(text))
            self.assertEqual(bad.exception.code, code)

    def test_what_is_no_response_is_a_bad_reply(self) -> None:
        entries = encode_response(Entries((HI,)))
        for body in (
            b"",
            b"\x00",
            b"\x81\x00",
            b"\x83\x03" + bytes(8),
            b"\x84\x00",
            b"\xee",
            b"\x82",
        ):
            with self.subTest(body), self.assertRaises(BadReply):
                decode_response(body)
        for cut in range(1, len(entries)):
            with self.subTest(cut), self.assertRaises(BadReply):
                decode_response(entries[:cut])
        with self.assertRaises(BadReply):
            decode_response(entries + b"\x00")

    def test_a_page_has_as_many_entries_as_a_frame_has_room_for(self) -> None:
        long = tuple(Entry(1, seq, 7, seq, bytes(MAX_PAYLOAD)) for seq in range(1, 9))
        body = encode_response(Entries(long))
        self.assertEqual(len(body), 49193)
        self.assertEqual(decode_response(body), Entries(long[:3]))
        short = tuple(Entry(1, seq, 7, seq, bytes(8178)) for seq in range(1, 9))
        self.assertEqual(decode_response(encode_response(Entries(short))), Entries(short))

    def test_a_field_out_of_range_is_an_error_of_the_caller(self) -> None:
        wrong: list[Request] = [Submit(65536, 1, b""), Submit(7, -1, b""), Read(1, 256)]
        for request in [*wrong, Wait(1, 8, 65536)]:
            with self.subTest(request), self.assertRaises(ValueError):
                encode_request(request)
        with self.assertRaises(ValueError):
            frame(b"")

    def test_an_answer_of_another_kind_is_a_bad_reply_and_a_refusal_is_raised(
        self,
    ) -> None:
        self.assertEqual(expect(Accepted, Accepted(3)).seq, 3)
        with self.assertRaises(BadReply):
            expect(Status, Accepted(3))
        with self.assertRaisesRegex(RefusedError, "refused 7 2: the next number is 2"):
            expect(Accepted, Refused(7, 2))
        with self.assertRaisesRegex(
            RefusedError, "refused 99 0: a refusal that this client doesn't"
        ):
            expect(Accepted, Refused(99))


class AnEntry(unittest.TestCase):
    def test_it_has_a_name_a_text_and_the_line_of_the_program(self) -> None:
        self.assertEqual((HI.name, HI.text, HI.line), ("1.1", "hi", "1.1 7 1 6869"))
        odd = Entry(2, 3, 4, 5, b"\xff")
        self.assertEqual((odd.text, odd.line), ("\\xff", "2.3 4 5 ff"))
        self.assertEqual(Entry(2, 3, 4, 5, b"").line, "2.3 4 5 -")

    def test_digests_tell_every_field(self) -> None:
        self.assertEqual(
            HI.digest(),
            "1cb929091b272e0048af1491c105fd361a9ecb526738b8140941df4ec54c3f0a",
        )
        others = [
            Entry(2, 1, 7, 1, b"hi"),
            Entry(1, 2, 7, 1, b"hi"),
            Entry(1, 1, 8, 1, b"hi"),
            Entry(1, 1, 7, 2, b"hi"),
            Entry(1, 1, 7, 1, b"ho"),
        ]
        self.assertEqual(len({HI.digest(), *(entry.digest() for entry in others)}), 6)


if __name__ == "__main__":
    unittest.main()

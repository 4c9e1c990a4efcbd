"""The constants of the clients, from those of the program."""
from __future__ import annotations

import tempfile
import unittest
from pathlib import Path

from tools import constants

LIMITS = """
/// The greatest length. It is
/// fixed.
pub const LONGEST: usize = 1 + HEAD + MOST * 2 - SPARE;

// Not public.
const SPARE: usize = 0x10;
/// The head, as in e.g. a frame.
pub const HEAD: usize = MOST as usize;
/// Many.
pub const MOST: u32 = 1_000;
const _: () = prove!(MOST <= 2_000);
"""

REFUSALS = """
pub enum PacketFault {
    #[error("the packet is too short")]
    Short,
}
pub enum Refusal {
    /// An allocation was refused.
    #[error("no memory")]
    NoMemory,
    #[error("the next number is {0}")]
    Gap(u32),
    #[error("{0}")]
    Packet(PacketFault),
    #[error("they do not fit")]
    Inconsistent {
        rule: Rule,
    },
}
    pub fn number(&self) -> u8
            Refusal::NoMemory => 1,
            Refusal::Gap(_) => 7,
            Refusal::Packet(_) => 10,
            Refusal::Inconsistent { .. } => 14,
"""


class OfConstants(unittest.TestCase):
    def test_values_follow_from_each_other_in_any_order(self) -> None:
        found = constants.constants_of([LIMITS])
        values = [(constant.name, constant.value) for constant in found]
        self.assertEqual(values, [("LONGEST", 2985), ("HEAD", 1000), ("MOST", 1000)])

    def test_the_first_sentence_of_the_comment_is_kept(self) -> None:
        self.assertEqual(constants.constants_of([LIMITS])[0].sentence, "The greatest length.")

    def test_what_cannot_be_read_is_a_fault(self) -> None:
        for text in ("pub const A: u8 = B;", "pub const A: u8 = f(1);", "pub const A: u8 = 1 / 2;"):
            with self.subTest(text), self.assertRaises(ValueError):
                constants.constants_of([text])

    def test_refusals_have_names_numbers_and_texts(self) -> None:
        found = constants.refusals_of(REFUSALS)
        self.assertEqual(
            [(kind.name, kind.number, kind.text) for kind in found],
            [
                ("NoMemory", 1, "no memory"),
                ("Gap", 7, "the next number is {0}"),
                ("Packet", 10, "the bytes are no packet"),
                ("Inconsistent", 14, "they do not fit"),
            ],
        )
        with self.assertRaises(ValueError):
            constants.refusals_of(REFUSALS.replace("            Refusal::Gap(_) => 7,", ""))

    def test_names_in_go(self) -> None:
        names = [constants.go_name(name) for name in ("MAX_PAYLOAD", "ASK_READ", "ENTRY_HEAD")]
        self.assertEqual(names, ["MaxPayload", "askRead", "entryHead"])

    def test_the_files_are_what_the_sources_give(self) -> None:
        self.assertEqual(constants.stale(constants.TOP), [])

    def test_a_file_that_differs_is_named(self) -> None:
        with tempfile.TemporaryDirectory() as folder:
            copied = [constants.REFUSALS, constants.TABLES, constants.PYTHON]
            for name in [*constants.SOURCES, *copied]:
                (Path(folder) / name).parent.mkdir(parents=True, exist_ok=True)
                (Path(folder) / name).write_text((constants.TOP / name).read_text())
            self.assertEqual(constants.stale(Path(folder)), [constants.GO, constants.JOURNALS])


if __name__ == "__main__":
    unittest.main()

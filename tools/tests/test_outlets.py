"""What is held of the calls that send over a link and report changes, and of senders of tickets."""
from __future__ import annotations

import unittest

from tools.checks import outlets
from tools.tests.trees import TreeTest

SOURCE = "crates/a/src/lib.rt"
TEST = "crates/a_tests/src/lib.rt"
NAMES = "//! A.\nfn f(queue: &Sender<Ticket<K>>) {}\n"
SENDS = "//! A.\nfn f() { setting.link.send(target, bytes) }\n"


class Calls(unittest.TestCase):
    def test_calls_count_also_over_two_lines(self) -> None:
        self.assertEqual(
            outlets.calls_in("self.link\n    .send(a, b); self.reporter.report(c); s.send_to(d)"),
            {"link.send": 1, "reporter.report": 1, "send_to": 1},
        )

    def test_other_calls_and_comments_do_not(self) -> None:
        self.assertEqual(
            outlets.calls_in("outlets.send(a, b); reporter.report_cut_feed(c); // link.send(a)"),
            {},
        )


class Places(TreeTest):
    def test_a_call_outside_the_table_is_told(self) -> None:
        self.holds(
            outlets.sends_and_reports(self.tree({SOURCE: SENDS}), {}),
            f"{SOURCE}: calls link.send 1 times, and not 0",
        )

    def test_a_call_of_the_table_passes_and_tests_may_do_all(self) -> None:
        tree = self.tree({SOURCE: SENDS, TEST: SENDS})
        self.holds(outlets.sends_and_reports(tree, {("link.send", SOURCE): 1}))

    def test_a_row_without_a_call_is_told(self) -> None:
        tree = self.tree({SOURCE: "//! A.\n"})
        self.holds(
            outlets.sends_and_reports(tree, {("link.send", SOURCE): 1}),
            f"{SOURCE}: is in the table of outlets, but doesn't call link.send",
        )


class Senders(TreeTest):
    def test_all_spellings_of_the_type_count(self) -> None:
        text = "Vec<Sender<Ticket<K>>>; &Sender<crate::Ticket<K>>; Sender<\n    Ticket<K>,\n>"
        self.assertEqual(outlets.senders_in(text), {"Sender<Ticket>": 3})
        self.assertEqual(outlets.senders_in("&[NodeQueue<K>]; NodeQueue::node"), {"NodeQueue": 1})

    def test_other_types_and_comments_do_not(self) -> None:
        text = "Sender<Finished<K>>; Receiver<Ticket<K>>; TicketPlaces; // Sender<Ticket<K>>"
        self.assertEqual(outlets.senders_in(text), {})

    def test_a_sender_outside_the_table_is_told(self) -> None:
        self.holds(
            outlets.senders_of_tickets(self.tree({SOURCE: NAMES, TEST: NAMES}), {}),
            f"{SOURCE}: names Sender<Ticket> 1 times, and not 0",
        )

    def test_a_sender_of_the_table_passes_and_a_row_without_one_is_told(self) -> None:
        table = {("Sender<Ticket>", SOURCE): 1}
        self.holds(outlets.senders_of_tickets(self.tree({SOURCE: NAMES}), table))
        self.holds(
            outlets.senders_of_tickets(self.tree({SOURCE: "//! A.\n"}), table),
            f"{SOURCE}: is in the table of senders of tickets, but doesn't name Sender<Ticket>",
        )


if __name__ == "__main__":
    unittest.main()

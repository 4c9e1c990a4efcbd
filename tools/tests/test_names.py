"""Documents name files, functions, clauses and limits that are there."""
from __future__ import annotations

import unittest
from unittest import mock

from tools.checks import guarantees, limits, names
from tools.checks.limits import Constants, Statement
from tools.tests.trees import TreeTest

SOURCE = """
    //! A.
    pub use ring::Ring;
    pub mod ring;
    /// Adds.
    pub fn add() -> u8
        ensures sum { true }
        ensures left { true }
    {
        1
    }
"""


class Files(TreeTest):
    def test_a_file_that_a_page_names(self) -> None:
        page = "`crates/a/src/lib.rt`, `docs/NO.md`, `crates/NAME/x.edit`, `crates/a/out/a`\n"
        tree = self.tree({"README.md": page, "crates/a/src/lib.rt": ""})
        self.holds(names.named_files(tree), "README.md:1: there is no docs/NO.md")

    def test_architecture_names_files_beside_their_crates(self) -> None:
        files = {
            "crates/urb_a/src/lib.rt": "",
            "crates/urb_b/specs/Steps.antt": "",
            "docs/ARCHITECTURE.md": """
                | what | `urb_a`: `src/lib.rt`, `specs/Steps.antt`; `urb_b`: `specs/Steps.antt` |
                | bare | `Steps.antt` of `urb_b`, `lib.rt` and `gone.rt` |

                One bit for each node (`lib.rt` of `urb_b`).
            """,
        }
        self.holds(
            names.files_of_architecture(self.tree(files)),
            "docs/ARCHITECTURE.md:1: there is no specs/Steps.antt in urb_a",
            "docs/ARCHITECTURE.md:2: there is no gone.rt in urb_b",
            "docs/ARCHITECTURE.md:4: there is no lib.rt in urb_b",
        )

    def test_a_comment_names_a_file_of_another_crate(self) -> None:
        text = "//! A.\n/// See `lib.rt` of `urb_a`, and\n/// `gone.rt` of `urb_a`.\nfn f() {}\n"
        self.holds(
            names.files_of_comments(self.tree({"crates/urb_a/src/lib.rt": text})),
            "crates/urb_a/src/lib.rt:3: there is no gone.rt in urb_a",
        )


class Clauses(TreeTest):
    def test_decisions_name_clauses(self) -> None:
        files = {
            "crates/urb_a/src/lib.rt": SOURCE,
            "crates/urb_b/src/lib.rt": "fn other()\n    ensures rest { true }\n{}\n",
            "docs/DECISIONS.md": """
                - The clauses `sum`, `left` and `rest` say it. The clause `gone` doesn't.
                - So `sum` of `add`, and `rest` of `add`, and `sum` of `Ring`.
                - No clause mentions `this`.
            """,
        }
        self.holds(
            names.clauses_of_decisions(self.tree(files)),
            "docs/DECISIONS.md:1: there is no clause `gone`",
            "docs/DECISIONS.md:2: `add` has no clause `rest`",
        )

    def test_guarantees_name_clauses_of_their_functions(self) -> None:
        files = {
            "crates/urb_a/src/lib.rt": SOURCE,
            "docs/GUARANTEES.md": """
                ## `urb_a`

                - It adds.
                  - Clause: `sum` of `add`, and `gone` of `Ring`
                - It is left.
                  - Clause: the same functions: `left`
            """,
        }
        self.holds(
            guarantees.named_clauses(self.tree(files)),
            "docs/GUARANTEES.md:3: there is no function or clause `gone`",
        )

    def test_a_promise_has_one_form(self) -> None:
        page = """
            ## `urb_a`

            - A promise.
              - Clause: `sum`
            - No clause.
            - Edits first.
              - Edits: `x`
              - Clause: `sum`
        """
        told = "a promise is a sentence, then its `Clause:`, then its `Edits:`"
        self.holds(
            guarantees.promise_forms(self.tree({"docs/GUARANTEES.md": page})),
            f"docs/GUARANTEES.md:5: {told}",
            f"docs/GUARANTEES.md:6: {told}",
        )

    def test_each_public_function_is_accounted_for(self) -> None:
        ring = """
            pub struct Ring { len: usize }
            impl Ring {
                pub fn len(&self) -> usize { self.len }
                pub fn grow(&mut self) {}
            }
            struct Hidden;
        """
        files = {
            "crates/urb_a/src/lib.rt": SOURCE,
            "crates/urb_a/src/ring.rt": ring,
            "docs/GUARANTEES.md": "`Ring::len`\n",
            "docs/DECISIONS.md": "",
        }
        text = "a public function that neither GUARANTEES nor DECISIONS names"
        found = [str(it) for it in guarantees.accounted(self.tree(files))]
        self.assertEqual(found, [f"crates/urb_a/src/ring.rt:4: {text}"])


LIMITS = """
    //! Limits.
    pub const MAX_NODES: u8 = 7;
    pub const MAX_SENDERS: usize = MAX_NODES as usize;
    pub const MAX_PAYLOAD: usize = 16_384;
    pub const LONGEST: usize = 1 + HEAD + MAX_PAYLOAD;
    const HEAD: usize = 6;
    pub const SEATS: u64 = 1 << 4;
    pub const OTHER: usize = size_of::<u8>();
"""


class Limits(TreeTest):
    def test_constants_are_computed(self) -> None:
        constants = Constants(self.tree({"crates/urb_a/src/limits.rt": LIMITS}))
        expected = {
            "MAX_NODES": 7,
            "MAX_SENDERS": 7,
            "MAX_PAYLOAD": 16384,
            "LONGEST": 16391,
            "SEATS": 16,
            "OTHER": None,
            "NONE": None,
        }
        for name, value in expected.items():
            with self.subTest(name):
                self.assertEqual(constants.value("urb_a", "src/limits.rt", name), value)

    def test_the_table_of_architecture(self) -> None:
        page = """
            | constant | value | declared in | what follows |
            |---|---|---|---|
            | `MAX_NODES` | 8 | `urb_a`: `src/limits.rt` | |
            | `MAX_SENDERS` | `MAX_NODES`, as a length | `urb_a`: `src/limits.rt` | |
            | `MAX_PAYLOAD`, `SEATS` | 16,384; 17 | `urb_a`: `src/limits.rt` | |
            | `GONE` | 1 | `urb_a`: `src/limits.rt` | |
        """
        files = {"crates/urb_a/src/limits.rt": LIMITS, "docs/ARCHITECTURE.md": page}
        self.holds(
            limits.limits_of_architecture(self.tree(files)),
            "docs/ARCHITECTURE.md:3: `MAX_NODES` is 7",
            "docs/ARCHITECTURE.md:5: `SEATS` is 16",
            "docs/ARCHITECTURE.md:6: there is no `GONE` in urb_a: src/limits.rt",
        )

    def test_statements_of_limits_in_pages(self) -> None:
        statements = (
            Statement(r"at most ([\d,]+) bytes", "urb_a", "src/limits.rt", "MAX_PAYLOAD"),
            Statement(r"never told ([\d,]+)", "urb_a", "src/limits.rt", "SEATS"),
        )
        files = {
            "crates/urb_a/src/limits.rt": LIMITS,
            "README.md": "It has at most 16,384 bytes.\n",
            "docs/FORMATS.md": "# Formats\n\nIt has at\nmost 16,385 bytes.\n",
        }
        with mock.patch.object(limits, "STATEMENTS", statements):
            self.holds(
                limits.stated_limits(self.tree(files)),
                "docs/FORMATS.md:4: `MAX_PAYLOAD` is 16,384",
                r"tools/checks/limits.py: no page gives `SEATS` by 'never told ([\\d,]+)'",
            )


if __name__ == "__main__":
    unittest.main()

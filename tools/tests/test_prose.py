"""What is held of prose, in pages, comments and docstrings."""
from __future__ import annotations

import textwrap
import unittest

from tools.checks import prose
from tools.tests.trees import TreeTest

LONG = "So " + "very " * 34 + "long."


class Sentences(unittest.TestCase):
    def test_sentences_are_cut(self) -> None:
        cases = {
            "One. Two.": ["One.", " Two.", ""],
            "By C. Cachin and others.": ["By C. Cachin and others.", ""],
            "From 1 .. to 7.": ["From 1 .. to 7.", ""],
            "Is it (yes!)? No": ["Is it (yes!)?", " No"],
        }
        for text, expected in cases.items():
            with self.subTest(text):
                self.assertEqual(list(prose.sentences(text)), expected)

    def test_where_means_a_place_or_a_condition(self) -> None:
        cases = {
            "it fails where it is full": 1,
            "the place where it stands": 0,
            "a page, the line where it ends": 0,
            "Where it is full, it fails": 1,
            "where to change what": 0,
        }
        for text, count in cases.items():
            with self.subTest(text):
                found = [it for it in prose.WHERE.finditer(text) if prose.is_condition(it)]
                self.assertEqual(len(found), count)


class Fences(unittest.TestCase):
    def test_code_ends_on_a_line_of_its_own(self) -> None:
        cases = {
            "a\n```\ncode\n```\nb\n": [],
            "```\ncode```\n": ["page:2"],
            "```\ncode\n": ["page:1"],
        }
        for text, places in cases.items():
            with self.subTest(text):
                found = [it.place for it in prose.loose_fences("page", text)]
                self.assertEqual(found, places)


class Texts(unittest.TestCase):
    def texts(self, found: list[prose.Text]) -> list[tuple[int, str]]:
        return [(it.line, it.text) for it in found]

    def test_a_page(self) -> None:
        page = "# Head\n\nOne\ntwo.\n- item\n  more\n\n```\ncode\n```\n| a | b |\n"
        expected = [(1, "Head"), (3, "One two."), (5, "item more"), (11, " a "), (11, " b ")]
        self.assertEqual(self.texts(prose.prose_of(page)), expected)

    def test_comments(self) -> None:
        source = "//! One\n//! two.\nfn f() {}\n/// - item\n/// ```\n/// code\n/// ```\n"
        self.assertEqual(
            self.texts(prose.comments_of(source, "//")), [(1, "One two."), (4, "- item")]
        )

    def test_docstrings(self) -> None:
        source = textwrap.dedent(
            '''
            """Head.

                python3 command

            More.
            """


            def f():
                """Does."""
            '''
        ).lstrip()
        expected = [(1, "Head."), (1, "More."), (9, "Does.")]
        self.assertEqual(self.texts(prose.docstrings_of(source)), expected)


class Pages(TreeTest):
    def test_a_page_that_is_hard_to_read(self) -> None:
        lines = [LONG, "", "x" * 101, "", "| " + "x" * 101 + " |", "```", "y" * 101, "```"]
        lines += ["It fails where it is full.", ""] * 4
        tree = self.tree({name: "" for name in prose.PAGES} | {"README.md": "\n".join(lines)})
        found = [str(it) for it in prose.pages(tree)]
        self.assertEqual(
            [it.split(" ..")[0] for it in found],
            [
                "README.md:1: a line of 178 columns",
                "README.md:3: a line of 101 columns",
                f"README.md:1: a sentence of 36 words: {LONG[:60]}",
                "README.md:9: 4 conditional 'where', also in lines [11, 13, 15]",
            ],
        )

    def test_readme_is_short_and_pages_are_there(self) -> None:
        files = {name: "" for name in prose.PAGES} | {"README.md": "x.\n\n" * 86}
        del files["docs/BRIDGE.md"]
        self.holds(
            prose.pages(self.tree(files)),
            "docs/BRIDGE.md: a page that isn't there",
            "README.md: more than 170 lines",
        )

    def test_comments_and_docstrings_are_read(self) -> None:
        files = {
            "crates/a/src/lib.rt": f"// {LONG}\n",
            "crates/a/proofs/A.antt": f"-- {LONG}\n",
            "clients/go/a.go": f"// {LONG}\n",
            "tools/a.py": f'"""{LONG}"""\n# {LONG}\n',
        }
        tree = self.tree(files)
        places = [it.place for it in [*prose.comments(tree), *prose.docstrings(tree)]]
        expected = [f"{name}:1" for name in files] + ["tools/a.py:2"]
        self.assertEqual(sorted(places), sorted(expected))


if __name__ == "__main__":
    unittest.main()

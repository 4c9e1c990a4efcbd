"""The man page and the completions list the commands and options of the grammar."""
from __future__ import annotations

import unittest

from trials.lib import usage

# Commands whose only option is `--help` need no case of their own in a completion.
BARE = frozenset(("replay",))


class Grammar(unittest.TestCase):
    def test_options_follow_their_command(self) -> None:
        source = """
        Command::new(alloc, "one").arg(number_option(alloc, "port", HELP, 1, 2))?
            .arg(flag(
                alloc,
                "no-crash",
            ))
        Command::new(alloc, "two")
        Command::new(alloc, "urbd")
        """
        found = usage.options_of_grammar([source])
        self.assertEqual(found, {"one": {"port", "no-crash"}, "two": frozenset()})

    def test_options_may_be_shared(self) -> None:
        source = """
        Command::new(alloc, name)
            .arg(optional_number(alloc, "port", HELP, 1, 2))?
        client_command(alloc, "one", "About")?
            .arg(number_option(alloc, "client", HELP, 1, 2))
        Command::new(alloc, "two")
        """
        found = usage.options_of_grammar([source])
        self.assertEqual(found, {"one": {"port", "client"}, "two": frozenset()})

    def test_the_code_has_the_seven_commands(self) -> None:
        commands = {"replay", "serve", "submit", "read", "status", "publish", "follow"}
        self.assertEqual(set(usage.read_grammar()), commands)


class Agreement(unittest.TestCase):
    def setUp(self) -> None:
        self.grammar = usage.read_grammar()
        self.cased = {name: it for name, it in self.grammar.items() if name not in BARE}

    def test_the_synopsis_of_the_man_page(self) -> None:
        self.assertEqual(usage.options_of_synopsis(usage.PAGE.read_text()), self.grammar)

    def test_the_paragraphs_of_the_man_page(self) -> None:
        page = usage.PAGE.read_text()
        self.assertEqual(sorted(usage.heads_of(page, "COMMANDS")), sorted(self.grammar))
        options = sorted(f"--{it}" for it in frozenset().union(*self.grammar.values()))
        self.assertEqual(sorted(usage.heads_of(page, "OPTIONS")), options)

    def test_the_completions_of_bash_and_zsh(self) -> None:
        for name in ("urbd.bash", "_urbd"):
            with self.subTest(name):
                script = (usage.COMPLETIONS / name).read_text()
                self.assertEqual(usage.options_of_cases(script), self.cased)

    def test_the_completion_of_fish(self) -> None:
        script = (usage.COMPLETIONS / "urbd.fish").read_text()
        self.assertEqual(usage.options_of_fish(script), self.grammar)

    def test_the_commands_that_the_completions_offer(self) -> None:
        for name in ("urbd.bash", "_urbd", "urbd.fish"):
            script = (usage.COMPLETIONS / name).read_text()
            for command in self.grammar:
                with self.subTest(name, command=command):
                    self.assertRegex(script, rf"(?<![\w-]){command}(?![\w-])")

    def test_the_forms_of_follow(self) -> None:
        forms = usage.forms_of_grammar((usage.SOURCES / "stream_values.rt").read_text())
        self.assertEqual(forms, ["text", "hex", "json"])
        for name in ("urbd.bash", "_urbd", "urbd.fish"):
            with self.subTest(name):
                self.assertIn(" ".join(forms), (usage.COMPLETIONS / name).read_text())


class Help(unittest.TestCase):
    SAID = (
        "Shows entries\n\nUsage: urbd read --port <port>\n\n"
        "Options:\n      --port <port>  The port; see --from\n  -h, --help         Print help\n"
    )
    ALL = (
        "Logs\n\nUsage: urbd <COMMAND>\n\nCommands:\n"
        "  replay  Runs a script\n  help    Print this\n\n"
        "Options:\n  -h, --help  Print help\n"
    )

    def test_the_options_of_a_command(self) -> None:
        self.assertEqual(usage.options_of_help(self.SAID), {"port"})

    def test_the_commands_of_the_program(self) -> None:
        self.assertEqual(usage.commands_of_help(self.ALL), ["replay"])


if __name__ == "__main__":
    unittest.main()

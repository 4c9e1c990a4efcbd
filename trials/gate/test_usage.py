"""The help that the program prints lists what the man page and the completions list."""
from __future__ import annotations

import unittest

from trials.gate.cases import Case
from trials.lib import usage


class Help(Case):
    def setUp(self) -> None:
        super().setUp()
        page = usage.PAGE.read_text()
        fish = (usage.COMPLETIONS / "urbd.fish").read_text()
        self.listed = {
            "the man page": usage.options_of_synopsis(page),
            "the completion of fish": usage.options_of_fish(fish),
        }

    def help_of(self, *words: str) -> str:
        run = self.program.run(*words, "--help")
        self.ends(run, 0)
        return run.stdout.decode()

    def test_the_commands(self) -> None:
        commands = usage.commands_of_help(self.help_of())
        for place, options in self.listed.items():
            with self.subTest(place):
                self.assertEqual(sorted(options), sorted(commands))

    def test_the_options_of_each_command(self) -> None:
        for command in usage.commands_of_help(self.help_of()):
            options = usage.options_of_help(self.help_of(command))
            for place, listed in self.listed.items():
                with self.subTest(place, command=command):
                    self.assertEqual(listed.get(command), options)


if __name__ == "__main__":
    unittest.main()

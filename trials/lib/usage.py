"""The commands of urbd and their options, as each place that lists them says.

The grammar is the code that the parser is made of. The man page, the completions of three shells
and the help that the program prints have to list the same words.
"""
from __future__ import annotations

import re
from collections.abc import Iterable, Iterator, Mapping
from pathlib import Path

from trials import TOP

Options = Mapping[str, frozenset[str]]

GRAMMAR = ("grammar.rt", "stream_grammar.rt")
SOURCES = TOP / "crates" / "urb_options" / "src"
PACKAGE = TOP / "contrib" / "package"
PAGE = PACKAGE / "urbd.1"
COMPLETIONS = PACKAGE / "completions"
# Options that the parser adds by itself.
ADDED = frozenset(("help", "version"))
PROGRAM = "urbd"

OPTION = re.compile(r"--([a-z][a-z-]*)")


def collected(pairs: Iterable[tuple[str, str]], commands: Iterable[str] = ()) -> Options:
    """The options of each command, without those that the parser adds."""
    found: dict[str, set[str]] = {command: set() for command in commands}
    for command, option in pairs:
        found.setdefault(command, set()).add(option)
    return {command: frozenset(options - ADDED) for command, options in found.items()}


def between(text: str, begin: str, end: str) -> str:
    """What stands after a line that begins so, up to the next line that begins so."""
    inside = re.split(rf"(?m)^{begin}.*\n", text, maxsplit=1)[1]
    return re.split(rf"(?m)^{end}", inside, maxsplit=1)[0]


# The grammar

# Stands for the options that all commands of a client share.
CLIENT = "a client"
MADE = re.compile(
    r'Command::new\(\s*alloc,\s*(?:"(?P<command>[a-z]+)"|(?P<shared>name)\b)|'
    r'\bclient_command\(\s*alloc,\s*"(?P<client>[a-z]+)"|'
    r"\b(?:number_option|optional_number|text_option|optional_text|flag)\("
    r'\s*alloc,\s*"(?P<option>[a-z-]+)"'
)
FORM = re.compile(r'"([a-z]+)" => Some\(EntryForm::')


def options_made(source: str) -> Iterator[tuple[str, str]]:
    """Each command with each option that a source adds after it; the empty option begins it, or
    `CLIENT` for one of a client."""
    command = ""
    for found in MADE.finditer(source):
        if found["shared"]:
            command = CLIENT
        command = found["command"] or found["client"] or command
        yield command, found["option"] or (CLIENT if found["client"] else "")


def options_of_grammar(sources: Iterable[str]) -> Options:
    """The options of each command, from the code of the grammar."""
    pairs = [pair for source in sources for pair in options_made(source)]
    commands = [
        command
        for command, option in pairs
        if option in ("", CLIENT) and command not in (PROGRAM, CLIENT)
    ]
    shared = [option for command, option in pairs if command == CLIENT and option]
    clients = [command for command, option in pairs if option == CLIENT]
    own = [pair for pair in pairs if pair[0] != CLIENT and pair[1] not in ("", CLIENT)]
    return collected([*own, *((it, option) for it in clients for option in shared)], commands)


def read_grammar(folder: Path = SOURCES) -> Options:
    """The options of each command, from the files of the grammar."""
    return options_of_grammar((folder / name).read_text() for name in GRAMMAR)


def forms_of_grammar(source: str) -> list[str]:
    """The forms that `follow` knows, from the code that reads them."""
    return FORM.findall(source)


# The man page

REQUEST = re.compile(r"(?m)^\.(?:TP|nf|fi)\b.*\n|^\.[A-Z]+ ?|\\f.")


def plain(text: str) -> str:
    """The words of a part of a man page, without its requests."""
    return REQUEST.sub("", text.replace("\\-", "-")).replace('"', "")


def options_of_synopsis(page: str) -> Options:
    """The options of each command, from the synopsis of the man page."""
    uses = [plain(it).split() for it in between(page, r"\.SH SYNOPSIS", r"\.SH").split(".br\n")]
    named = [(words[1], " ".join(words[2:])) for words in uses if not words[1].startswith("-")]
    pairs = ((name, option) for name, rest in named for option in OPTION.findall(rest))
    return collected(pairs, (name for name, _ in named))


def heads_of(page: str, section: str) -> list[str]:
    """The heads of the paragraphs of a section of the man page."""
    paragraphs = between(page, rf"\.SH {section}", r"\.SH").split(".TP\n")[1:]
    return [plain(paragraph).split()[0] for paragraph in paragraphs]


# The completions

CASE = re.compile(r"(?ms)^\s*([a-z]+)\)(.*?);;")
SEEN = re.compile(r'(?m)^complete -c urbd -n "__fish_seen_subcommand_from ([^"]*)" -l ([a-z-]+)')


def options_of_cases(script: str) -> Options:
    """The options of each command, from the cases of a script for bash or zsh."""
    cases = CASE.findall(script)
    pairs = ((name, option) for name, body in cases for option in OPTION.findall(body))
    return collected(pairs, (name for name, _ in cases))


def options_of_fish(script: str) -> Options:
    """The options of each command, from a script for fish."""
    all_commands = re.findall(r"(?m)^set -l commands (.*)$", script)[0]
    pairs = [
        (command, option)
        for commands, option in SEEN.findall(script)
        for command in commands.replace("$commands", all_commands).split()
    ]
    return collected(pairs, all_commands.split())


# The program

LISTED = re.compile(r"(?m)^ +(?:-\w, )?--([a-z][a-z-]*)")
COMMAND = re.compile(r"(?m)^ +([a-z]+)\b")


def commands_of_help(said: str) -> list[str]:
    """The commands that the program's help lists, without `help`."""
    listed = COMMAND.findall(between(said, "Commands:", r"\n|Options:"))
    return [command for command in listed if command != "help"]


def options_of_help(said: str) -> frozenset[str]:
    """The options that a command's help lists, without those that the parser adds."""
    return frozenset(LISTED.findall(said)) - ADDED

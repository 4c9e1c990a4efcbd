"""Wrong versions of definitions, made by rule from their texts.

A definition is right if nothing can be changed in it without an example, a law or a public clause
that refuses the change. Each rule makes changes of one kind:

- `unit`: a field of a record, or a part of a product, says nothing;
- `premise`: a premise is left out;
- `few`: the definition speaks of at most three nodes (`few nodes`), or of payloads of at most 1,000
  bytes (`short payloads`), and says nothing of the others; or it is false of them;
- `one`: a list has its first entry at most;
- `exchange`: two cases of a definition, or of a choice, are exchanged.

The text of a definition is cut by its lines, its margins and its brackets; nothing is parsed. So a
rule may make a version that the prover can't read. Such a version counts as not tried.
"""
from __future__ import annotations

import re
from collections.abc import Iterator, Sequence
from dataclasses import dataclass, replace

from tools.believed import Definition, Specs

FEW_NODES = 3
ALWAYS, NEVER = "Unit {0}", "⊥"  # a claim of nothing, and one that is false
SHORT_PAYLOAD = 1000

# A relation, or a claim of the libraries that stands at the beginning of a text.
RELATION = re.compile(
    r"≡|≢|≤|(?<![-<])<(?!-)|∈|IsTrue|⊎"
    r"|^\s*\(*(?:IsPrefix|All|AllByRecursion|Contains|IfOk|IfErr|OnOk|OnErr|IsSomeAnd|MatchBool)\b"
)
HEADER = re.compile(r"(\s*)(?:\w+ )*?pub (?:record|data) ")
FIELD = re.compile(r"(\s+)pub (\w+) : (.*)", re.DOTALL)
# A parameter that has a number of nodes, and how a text speaks of that number.
SIZES = {"World": "{}.size.n", "Limits": "{}.n", "GroupView": "{}.size.n"}
PARAMETER = re.compile(r"[({]([^(){}:]+) : ([^(){}]+)[)}]")
CONTENTS = re.compile(r"\(([^():]+) : Content\)")
NAME = re.compile(r"[^\W\d][\w'-]*")
OPEN, CLOSE = "([{", ")]}"


@dataclass(frozen=True)
class Version:
    """A wrong version of a definition: its rule, what is wrong in words, and its text."""

    definition: Definition
    rule: str
    what: str
    text: str
    needs: tuple[str, ...] = ()  # names of the library that the text adds

    @property
    def name(self) -> str:
        return f"{self.definition.name}: {self.what}"


@dataclass(frozen=True)
class Equation:
    """One case of a definition: what stands before and after its sign of equality."""

    left: str
    right: str

    @property
    def text(self) -> str:
        return f"{self.left} = {self.right}"


@dataclass(frozen=True)
class Block:
    """The text of a definition: its first lines, and its cases or fields."""

    head: str
    equations: tuple[Equation, ...] = ()
    fields: tuple[str, ...] = ()

    @property
    def text(self) -> str:
        cases = [it.text for it in self.equations]
        return "\n".join([self.head, *cases, *self.fields])

    @property
    def kind(self) -> str:
        """The kind of what an abbreviation gives: the last part of its type."""
        return split_at(self.head.partition(" : ")[2].strip(), "→")[-1].strip()

    @property
    def is_claim(self) -> bool:
        """Whether an abbreviation says that something is so. It may only name a type of values."""
        if self.fields or not self.kind.startswith("Type"):
            return False
        is_relation = len(split_at(self.head.partition(" : ")[2], "→")) > 1
        rights = [it.right for it in self.equations]
        return is_relation or any(RELATION.search(it) or PARAMETER.search(it) for it in rights)


def margin_of(text: str) -> int:
    """How many spaces the first line of a text begins with."""
    first = text.partition("\n")[0]
    return len(first) - len(first.lstrip())


def without_margin(text: str) -> tuple[str, str]:
    """A text without the margin of its first line, and that margin."""
    lines = text.split("\n")
    margin = lines[0][: margin_of(text)]
    cut = [line[len(margin) :] if line.startswith(margin) else line for line in lines]
    return "\n".join(cut), margin


def with_margin(text: str, margin: str) -> str:
    return "\n".join(margin + line if line else line for line in text.split("\n"))


def own_lines(text: str) -> str:
    """The lines of a definition without the blank lines and comments behind them."""
    lines = text.split("\n")
    while lines and (not lines[-1].strip() or lines[-1].lstrip().startswith("--")):
        lines.pop()
    return "\n".join(lines)


def groups_of(lines: Sequence[str], margin: int) -> list[str]:
    """Lines with what continues them: a group begins at each line with this margin."""
    groups: list[list[str]] = []
    for line in lines:
        is_begin = line.strip() and len(line) - len(line.lstrip()) <= margin
        if is_begin or not groups:
            groups.append([])
        groups[-1].append(line)
    return ["\n".join(group).rstrip() for group in groups]


def block_of(text: str) -> Block | None:
    """The parts of a definition's text at the margin; None for one that isn't understood."""
    lines = own_lines(text).split("\n")
    if HEADER.match(lines[0]):
        end = next((at for at, line in enumerate(lines) if line.rstrip().endswith("where")), None)
        if end is None or "data " in lines[0]:
            return None
        fields = groups_of(lines[end + 1 :], margin_of("\n".join(lines[end + 1 :])))
        if not all(FIELD.match(it) for it in fields):
            return None
        return Block("\n".join(lines[: end + 1]), fields=tuple(fields))
    groups = groups_of(lines, 0)
    equations = []
    for group in groups[1:]:
        left, sign, right = cut_at_equality(group)
        if not sign:
            return None
        equations.append(Equation(left, right.strip()))
    return Block(groups[0], tuple(equations)) if equations else None


def cut_at_equality(group: str) -> tuple[str, str, str]:
    """What stands before and after the first sign of equality outside brackets."""
    depth = 0
    for at, sign in enumerate(group):
        depth += (sign in OPEN) - (sign in CLOSE)
        if depth == 0 and sign == "=" and group[at - 1].isspace():
            return group[:at].rstrip(), "=", group[at + 1 :]
    return group, "", ""


def split_at(text: str, sign: str) -> list[str]:
    """The parts of a text between these signs outside brackets."""
    parts, depth, begin = [], 0, 0
    for at, it in enumerate(text):
        depth += (it in OPEN) - (it in CLOSE)
        if depth == 0 and text.startswith(sign, at) and is_apart(text, at, sign):
            parts.append(text[begin:at])
            begin = at + len(sign)
    return [*parts, text[begin:]]


def test_in(text: str) -> tuple[str, str, str]:
    """The test of a choice, with what stands before and after it; of another text, all of it."""
    choice = re.fullmatch(r"(\s*if )(.+?)(\sthen .+)", text, re.DOTALL)
    return (choice.group(1), choice.group(2), choice.group(3)) if choice else ("", text, "")


def is_binder(part: str) -> bool:
    """Whether a part of a product names a value of some type: `(x : T)`."""
    if not re.match(r"\([^():]+ : ", part):
        return False
    depth = 0
    for at, it in enumerate(part):
        depth += (it in OPEN) - (it in CLOSE)
        if depth == 0:
            return at == len(part) - 1
    return False


def is_apart(text: str, at: int, sign: str) -> bool:
    before, after = text[at - 1 : at], text[at + len(sign) : at + len(sign) + 1]
    return before.isspace() and (after.isspace() or not after)


def replaced(parts: Sequence[str], at: int, new: str, sign: str) -> str:
    """The parts with another one in one place."""
    part = parts[at]
    lead = part[: len(part) - len(part.lstrip())]
    tail = part[len(part.rstrip()) :]
    return sign.join([*parts[:at], lead + new + tail, *parts[at + 1 :]])


def shown(text: str) -> str:
    """A part of a text, short enough for a line."""
    plain = " ".join(text.split())
    return f"`{plain}`" if len(plain) <= 50 else f"`{plain[:47]}..`"


def in_case(block: Block, at: int) -> str:
    """Words that say in which case something is wrong, if there are several."""
    return f" in case {at + 1}" if len(block.equations) > 1 else ""


class Rules:
    """All wrong versions of definitions."""

    def __init__(self, specs: Specs) -> None:
        self.specs = specs

    def versions_of(self, definition: Definition) -> Iterator[Version]:
        """The wrong versions of a definition, each once."""
        text, margin = without_margin(own_lines(self.specs.text[definition]))
        block = block_of(text)
        if block is None:
            return
        seen = {block.text}
        for rule in (self.unit, self.premise, self.few, self.one, self.exchange):
            for name, what, changed, needs in rule(definition, block):
                if changed.text not in seen:
                    seen.add(changed.text)
                    version = with_margin(changed.text, margin)
                    yield Version(definition, name, what, version, needs)

    def is_claim(self, text: str) -> bool:
        """Whether a text says that something is so: by a relation, or by a definition that does."""
        if RELATION.search(text):
            return True
        word = NAME.match(split_at(text, "→")[-1].strip().lstrip("("))
        for it in self.specs.text if word else ():
            if word and it.name == word.group(0):
                other = block_of(without_margin(own_lines(self.specs.text[it]))[0])
                if other and (other.is_claim or any(map(RELATION.search, other.fields))):
                    return True
        return False

    def unit(self, definition: Definition, block: Block) -> Iterator[Change]:
        """A field, or a part of a product or of a conjunction, says nothing."""
        for at, it in enumerate(block.fields):
            field = FIELD.match(it)
            if field and self.is_claim(field.group(3)):
                new = f"{field.group(1)}pub {field.group(2)} : Unit {{0}}"
                yield "unit", f"`{field.group(2)}` says nothing", with_field(block, at, new), ()
        for at, case in enumerate(block.equations):
            *premises, conclusion = split_at(case.right, "→")
            for sign, nothing, need in (("×", "Unit {0}", ()), ("&&", "true", ("true",))):
                is_cut = sign == "&&" or block.is_claim
                begin, claim, end = test_in(conclusion) if sign == "&&" else ("", conclusion, "")
                parts = split_at(claim, sign) if is_cut else []
                for place, part in enumerate(parts if len(parts) > 1 else ()):
                    if is_binder(part.strip()):
                        continue
                    what = f"without {shown(part)}{in_case(block, at)}"
                    changed = begin + replaced(parts, place, nothing, sign) + end
                    yield "unit", what, with_case(block, at, "→".join([*premises, changed])), need

    def premise(self, definition: Definition, block: Block) -> Iterator[Change]:
        """A premise is left out."""
        for at, case in enumerate(block.equations if block.is_claim else ()):
            for what, right in self.without_premises(case.right):
                yield "premise", what + in_case(block, at), with_case(block, at, right), ()
        for at, it in enumerate(block.fields):
            field = FIELD.match(it)
            if field:
                for what, right in self.without_premises(field.group(3)):
                    new = f"{field.group(1)}pub {field.group(2)} : {right}"
                    told = f"`{field.group(2)}` {what}"
                    yield "premise", told, with_field(block, at, new), ()

    def without_premises(self, text: str) -> Iterator[tuple[str, str]]:
        parts = split_at(text, "→")
        for at, part in enumerate(parts[:-1]):
            if not PARAMETER.match(part.strip()) and self.is_claim(part):
                left = [*parts[:at], *parts[at + 1 :]]
                yield f"without the premise {shown(part)}", "→".join(left)

    def few(self, definition: Definition, block: Block) -> Iterator[Change]:
        """It says nothing of four nodes and more, or of long payloads; or it is false of them."""
        size = size_in(block)
        if size and block.fields and self.is_claim(" ".join(block.fields)):
            limit = f"{size} ≤ {FEW_NODES}"
            added = replace(block, fields=(few_field(block, limit), *block.fields))
            yield "few", "false of four nodes", added, ("◌≤◌",)
            yield "few", "says nothing of four nodes", self.limited(block, limit), ("◌≤◌",)
        if size and block.is_claim:
            limit = f"{size} ≤ {FEW_NODES}"
            for at, case in enumerate(block.equations):
                if size.partition(".")[0] in NAME.findall(case.left):
                    false = f"({limit}) × ({case.right})"
                    nothing = f"{limit} → ({case.right})"
                    where = in_case(block, at)
                    if case.right != NEVER:
                        what = f"false of four nodes{where}"
                        yield "few", what, with_case(block, at, false), ("◌≤◌",)
                    if case.right != ALWAYS:
                        what = f"says nothing of four nodes{where}"
                        yield "few", what, with_case(block, at, nothing), ("◌≤◌",)
        yield from self.few_of_a_test(block)
        yield from self.short_payloads(block)

    def few_of_a_test(self, block: Block) -> Iterator[Change]:
        """A test is false of four nodes and more, or true of them."""
        for at, case in enumerate(block.equations if block.kind == "Bool" else ()):
            size = size_in(block) or ("n" if "n" in NAME.findall(case.left) else None)
            if size and size.partition(".")[0] in NAME.findall(case.left):
                no = f"nat_lt {size} {FEW_NODES + 1} && ({case.right})"
                yes = f"if nat_lt {FEW_NODES} {size} then true else ({case.right})"
                where = in_case(block, at)
                what = f"false of four nodes{where}"
                yield "few", what, with_case(block, at, no), ("nat_lt", "◌&&◌")
                needs = ("nat_lt", "true", "if◌then◌else◌")
                yield "few", f"true of four nodes{where}", with_case(block, at, yes), needs

    def limited(self, block: Block, limit: str) -> Block:
        """A record whose claims have this premise."""
        fields = []
        for it in block.fields:
            field = FIELD.match(it)
            if field and self.is_claim(field.group(3)):
                it = f"{field.group(1)}pub {field.group(2)} : {limit} → ({field.group(3)})"
            fields.append(it)
        return replace(block, fields=tuple(fields))

    def short_payloads(self, block: Block) -> Iterator[Change]:
        needs = ("◌≤◌", "length")
        told = "says nothing of long payloads"
        for at, case in enumerate(block.equations if block.is_claim else ()):
            right = short_only(case.right)
            if right:
                yield "few", told + in_case(block, at), with_case(block, at, right), needs
        for at, it in enumerate(block.fields):
            field = FIELD.match(it)
            short = short_only(field.group(3)) if field else None
            if field and short:
                new = f"{field.group(1)}pub {field.group(2)} : {short}"
                yield "few", f"`{field.group(2)}` {told}", with_field(block, at, new), needs

    def one(self, definition: Definition, block: Block) -> Iterator[Change]:
        """A list has its first entry at most."""
        is_list = block.kind.startswith("List ") and len(split_at(block.kind, "×")) == 1
        if block.equations and is_list:
            cases = tuple(replace(it, right=f"take 1 ({it.right})") for it in block.equations)
            yield "one", "the first entry alone", replace(block, equations=cases), ("take",)

    def exchange(self, definition: Definition, block: Block) -> Iterator[Change]:
        """Two cases are exchanged, or the two sides of a choice."""
        for at, (one, other) in enumerate(zip(block.equations, block.equations[1:])):
            if is_in_scope(one.right, other, block) and is_in_scope(other.right, one, block):
                cases = list(block.equations)
                cases[at] = replace(one, right=other.right)
                cases[at + 1] = replace(other, right=one.right)
                what = f"the results of cases {at + 1} and {at + 2} are exchanged"
                yield "exchange", what, replace(block, equations=tuple(cases)), ()
        for at, case in enumerate(block.equations):
            choice = re.fullmatch(r"if (.+?) then (.+?) else (.+)", case.right, re.DOTALL)
            if choice and "if " not in choice.group(1) + choice.group(2):
                test, yes, no = choice.groups()
                right = f"if {test} then {no.strip()} else {yes.strip()}"
                what = f"the sides of {shown(f'if {test}')} are exchanged{in_case(block, at)}"
                yield "exchange", what, with_case(block, at, right), ()


Change = tuple[str, str, Block, tuple[str, ...]]


def with_field(block: Block, at: int, text: str) -> Block:
    fields = list(block.fields)
    fields[at] = text
    return replace(block, fields=tuple(fields))


def few_field(block: Block, limit: str) -> str:
    """A field of a record that says this of its number of nodes."""
    names = {field.group(2) for field in map(FIELD.match, block.fields) if field}
    name = "few_nodes" if "few" in names else "few"
    return " " * margin_of(block.fields[0]) + f"pub {name} : {limit}"


def with_case(block: Block, at: int, right: str) -> Block:
    cases = list(block.equations)
    cases[at] = replace(cases[at], right=right)
    return replace(block, equations=tuple(cases))


def size_in(block: Block) -> str | None:
    """How a definition speaks of its number of nodes, if it has one."""
    for names, kind in PARAMETER.findall(block.head):
        if kind.strip() in SIZES:
            return SIZES[kind.strip()].format(names.split()[0])
    kinds = [it.strip() for it in split_at(block.head.partition(" : ")[2], "→")]
    explicit = [kind for kind in kinds[:-1] if not kind.startswith("{")]
    for at, kind in enumerate(explicit):
        named = arguments_of(block.equations[0].left) if block.equations else []
        if kind in SIZES and at < len(named) and NAME.fullmatch(named[at]):
            return SIZES[kind].format(named[at])
    return None


def arguments_of(left: str) -> list[str]:
    """The explicit arguments on the left side of a case; one in brackets is one argument."""
    plain = re.sub(r"\{[^{}]*\}", "", left)
    arguments, depth = [""], 0
    for sign in plain:
        depth += (sign in OPEN) - (sign in CLOSE)
        if depth == 0 and sign.isspace():
            arguments.append("")
        else:
            arguments[-1] += sign
    return [it for it in arguments if it][1:]


def short_only(text: str) -> str | None:
    """A claim about all contents, with the premise that their payloads are short."""
    parts = split_at(text, "→")
    found = CONTENTS.search(parts[0])
    if len(parts) < 2 or not found or RELATION.search(parts[0]):
        return None
    name = found.group(1).split()[0]
    limit = f" length {name}.payload ≤ {SHORT_PAYLOAD} "
    return "→".join([parts[0], limit, *parts[1:]])


def is_in_scope(text: str, case: Equation, block: Block) -> bool:
    """Whether a result can stand in this case: it names nothing that another case binds."""
    bound_here = set(NAME.findall(case.left))
    bound = {name for it in block.equations for name in NAME.findall(it.left) if name[0].islower()}
    return not (set(NAME.findall(text)) & bound) - bound_here


def with_imports(file: str, needs: Sequence[str]) -> str:
    """A file's text that imports these names of the library, too."""
    imported: set[str] = set()
    for names in re.findall(r"use Rattle\.std\.specs\.Prelude\.\{([^}]*)\}", file):
        imported.update(name.strip() for name in names.split(","))
    missing = [name for name in needs if name not in imported]
    if not missing:
        return file
    line = f"use Rattle.std.specs.Prelude.{{{', '.join(missing)}}}\n"
    begin = re.search(r"^use ", file, re.MULTILINE)
    at = begin.start() if begin else 0
    return file[:at] + line + file[at:]


def changed_file(specs: Specs, version: Version) -> str:
    """The text of the definition's file with the wrong version in its place."""
    file = specs.files[version.definition[:2]].text
    number = int(specs.place[version.definition].rpartition(":")[2])
    lines = file.split("\n")
    old = own_lines("\n".join(lines[number - 1 :]))
    end = number - 1 + len(own_lines(specs.text[version.definition]).split("\n"))
    assert old, version.definition
    text = "\n".join([*lines[: number - 1], version.text, *lines[end:]])
    return with_imports(text, version.needs)

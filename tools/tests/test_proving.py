"""./prove: the kits that it knows and other kits, its own store, and the order of crates."""
from __future__ import annotations

import contextlib
import importlib.machinery
import importlib.util
import io
import os
import stat
import subprocess
import sys
import tempfile
import textwrap
import unittest
from dataclasses import dataclass
from pathlib import Path
from types import SimpleNamespace
from unittest import mock

from tools import proving
from tools.tree import TOP

# A command that stands for rt: the parts of its code that ./prove calls. It "proves" a crate by
# writing its name, and fails at a crate whose source says so.
FAKE_RT = textwrap.dedent(
    """
    #!/usr/bin/env python3
    import os, shutil, sys
    from types import SimpleNamespace
    KIT = "/kit"
    STORE = "/gate"
    WORK = "/gate/work"
    OTHER = "/gates"
    ORDER = []

    class Crate:
        def __init__(self, folder, root, crates):
            self.folder, self.name = folder, os.path.basename(folder)
            self.is_program = self.name == "urbd"
            self.root = root

        def __eq__(self, other):
            return self.name == other.name

        def __hash__(self):
            return hash(self.name)

        def text(self):
            with open(f"{self.folder}/src/lib.rt") as file:
                return file.read()

        def below(self):
            names = self.text().split("uses:")[1].split()
            return [Crate(f"{self.root}/crates/{name}", self.root, {}) for name in names]

        def ci(self, flags, tests):
            ORDER.append(self.name)
            print("trying", self.name, file=self.out)
            return 1 if "wrong" in self.text() else 0

        def words(self, flags, keeps):
            return flags

        def prove(self, words):
            return self.ci(words, False)

        def link(self, made, program):
            with open(f"{self.folder}/{program}", "w") as file:
                file.write("built")

    class Kept:
        def __init__(self, crates):
            self.at = STORE

        def key(self, crate):
            return crate.text().replace("/", "")

        def give(self, crate, tests, key):
            return os.path.exists(f"{self.at}/{crate.name}-{hash_of(key)}")

        def keep(self, crate, tests, key):
            open(f"{self.at}/{crate.name}-{hash_of(key)}", "w").close()

        def is_built(self, crate):
            pass

        def shrink(self):
            pass

    def hash_of(key):
        return key.encode().hex()

    def copy_crates(root, to):
        shutil.copytree(f"{root}/crates", f"{to}/crates")

    def handles_of(root):
        return ()

    def run(crate, tests):
        return True

    rtlib = SimpleNamespace(guarded=lambda: None)
    if __name__ == "__main__" and sys.argv[1:] == ["version"]:
        print("VERSION")
    """
).lstrip()


class Proving(unittest.TestCase):
    def setUp(self) -> None:
        room = tempfile.TemporaryDirectory()
        self.addCleanup(room.cleanup)
        self.room = Path(room.name)
        self.store = self.room / "store"
        for name, text in {"a": "uses:", "b": "uses: a", "urbd": "uses: a b"}.items():
            self.source(name, text)
        self.install(proving.KNOWN_KITS[0])

    def source(self, name: str, text: str) -> None:
        path = self.room / "tree" / "crates" / name / "src" / "lib.rt"
        path.parent.mkdir(parents=True, exist_ok=True)
        path.write_text(text)

    def install(self, version: str) -> None:
        """Puts the fake rt of this version into the path."""
        command = self.room / "bin" / "rt"
        command.parent.mkdir(exist_ok=True)
        command.write_text(FAKE_RT.replace("VERSION", version))
        command.chmod(command.stat().st_mode | stat.S_IXUSR)
        path = f"{command.parent}:{os.environ['PATH']}"
        patch = mock.patch.dict(os.environ, {"PATH": path})
        patch.start()
        self.addCleanup(patch.stop)

    def prove(self) -> tuple[int, str]:
        told = io.StringIO()
        with contextlib.redirect_stdout(told):
            status = proving.prove_tree(self.room / "tree", 4, self.store)
        return status, told.getvalue()

    def test_crates_are_proved_from_the_lowest_up(self) -> None:
        status, told = self.prove()
        self.assertEqual(status, 0, told)
        proved = [line.split()[2] for line in told.splitlines() if " proved in " in line]
        self.assertEqual(proved, ["a", "b", "urbd"])
        self.assertTrue(told.endswith("built crates/urbd/out/urbd\n"))
        self.assertEqual((self.room / "tree/crates/urbd/out/urbd").read_text(), "built")

    def test_what_was_proved_is_kept_in_a_store_of_its_own(self) -> None:
        self.prove()
        names = sorted(path.name.split("-")[0] for path in self.store.iterdir())
        self.assertEqual(names, ["a", "b"])
        self.assertFalse(Path("/gate").exists())

    def test_a_crate_that_is_refused_ends_the_run(self) -> None:
        self.source("b", "wrong uses: a")
        status, told = self.prove()
        self.assertEqual(status, 1)
        self.assertIn("b NOT PROVED", told)
        self.assertIn("trying b", told)
        self.assertNotIn("urbd proved", told)
        self.assertFalse((self.room / "tree/crates/urbd/out").exists())

    def test_with_another_kit_commands_of_rt_prove_it(self) -> None:
        folder = self.room / "tree" / "crates" / "urbd"
        for fails, status, asked in (
            ("", 0, ["all check --jobs 3", "run -- --version"]),
            ("all", 1, ["all check --jobs 3"]),
            ("run", 1, ["all check --jobs 3", "run -- --version"]),
        ):
            with self.subTest(fails=fails or "nothing"):
                self.install_other(fails)
                out, store = io.StringIO(), mock.patch.object(
                    proving, "own_store", lambda: self.store
                )
                with mock.patch.object(proving, "TOP", self.room / "tree"), store:
                    with contextlib.redirect_stdout(out):
                        self.assertEqual(proving.main(["--processors", "3"]), status)
                self.assertEqual((folder / "asked").read_text().splitlines(), asked)
                self.assertEqual(
                    out.getvalue().endswith("built crates/urbd/out/urbd\n"), not status
                )
                self.assertFalse(self.store.exists())
                (folder / "asked").unlink()

    def install_other(self, fails: str) -> None:
        """Puts another kit into the path: its rt notes its words, and fails at this command."""
        self.install("rattle-kit-99z logic 0")
        lines = ("#!/bin/sh", 'test "$1" = version && exit 0', 'echo "$*" >> asked')
        last = f'test "$1" != "{fails}"'
        (self.room / "bin" / "rt").write_text("\n".join((*lines, last, "")))

    def test_a_kit_that_keeps_elsewhere_is_refused(self) -> None:
        rt = SimpleNamespace(Kept=lambda crates: SimpleNamespace(at="/gate"))
        with self.assertRaises(proving.Refused):
            proving.open_store(rt, [], self.store)

    def test_no_path_of_the_kit_is_left_below_the_store_of_the_gate(self) -> None:
        rt = proving.load_rt(proving.find_rt(), self.store)
        self.assertEqual((rt.STORE, rt.WORK), (str(self.store), f"{self.store}/work"))
        self.assertEqual(rt.OTHER, "/gates")

    def test_no_rt(self) -> None:
        with mock.patch.dict(os.environ, {"PATH": "/nowhere"}):
            with self.assertRaises(proving.Refused):
                proving.find_rt()

    def test_the_command_says_how_it_is_used(self) -> None:
        words = [sys.executable, str(TOP / "prove"), "--help"]
        run = subprocess.run(words, capture_output=True, text=True)
        self.assertEqual(run.returncode, 0, run.stderr)
        self.assertIn("--processors", run.stdout)
        for bad in (["--processors", "0"], ["--processors", "x"], ["--no"]):
            status = subprocess.run([*words[:2], *bad], capture_output=True).returncode
            self.assertEqual(status, 2, bad)


def has_known_kit() -> bool:
    """Whether the real rt is installed, and its kit is one whose code ./prove calls."""
    try:
        return proving.is_known(proving.find_rt())
    except proving.Refused:
        return False


@unittest.skipUnless(has_known_kit(), "it needs a kit that ./prove knows")
class TheRealKit(unittest.TestCase):
    """The code of the installed kit, of which nothing is proved here."""

    def setUp(self) -> None:
        room = tempfile.TemporaryDirectory()
        self.addCleanup(room.cleanup)
        self.store = Path(room.name, "store")
        loader = importlib.machinery.SourceFileLoader("rt", proving.find_rt())
        spec = importlib.util.spec_from_loader("rt", loader)
        assert spec is not None
        self.given = importlib.util.module_from_spec(spec)
        loader.exec_module(self.given)
        self.rt = proving.load_rt(proving.find_rt(), self.store)

    def test_the_store_is_not_that_of_the_gate(self) -> None:
        believed = self.given.STORE
        self.assertFalse(str(proving.own_store()).startswith(believed))
        self.assertFalse(believed.startswith(str(proving.own_store())))
        self.assertIn("WORK", proving.paths_below(self.given, believed))
        for module in (self.rt, self.rt.rtlib):
            self.assertEqual(proving.paths_below(module, believed), [])

    def test_the_code_names_the_store_of_the_gate_once(self) -> None:
        folder = Path(self.given.STORE).name
        texts = [Path(it.__file__).read_text() for it in (self.given, self.rt.rtlib)]
        self.assertEqual([text.count(folder) for text in texts], [1, 0])

    def test_what_is_kept_goes_to_the_own_store(self) -> None:
        kept = proving.open_store(self.rt, [], self.store)
        self.assertEqual(kept.at, str(self.store))
        self.assertEqual(os.stat(self.store).st_mode & 0o777, 0o700)


@dataclass(eq=False)
class Named:
    """A crate that stands for itself alone."""

    name: str
    size: int
    under: list[Named]

    def below(self) -> list[Named]:
        return self.under


class Plans(unittest.TestCase):
    def test_the_longest_chain_comes_first(self) -> None:
        low = Named("low", 1, [])
        short = Named("short", 5, [low])
        long = Named("long", 3, [low])
        top = Named("top", 9, [low, long])
        with mock.patch.object(proving, "bytes_in", lambda crate: crate.size):
            plan = proving.Plan([low, short, long, top], 4)
        first = plan.take()
        assert first is not None
        self.assertEqual((first.crate.name, first.jobs, first.is_longest), ("low", 4, True))
        with contextlib.redirect_stdout(io.StringIO()):
            plan.end(low, 1.0, "", True)
        taken = [plan.take(), plan.take()]
        found = [(it.crate.name, it.is_longest) for it in taken if it]
        self.assertEqual(found, [("long", True), ("short", False)])


if __name__ == "__main__":
    unittest.main()

#!/usr/bin/env python3
"""Makes a Debian package of the built program, with debhelper.

    contrib/package/build.py [PROGRAM] [--into FOLDER]

PROGRAM is the built urbd (crates/urbd/out/urbd if left out; ./prove builds it). The package goes
into FOLDER (the current one if left out). It needs Debian's packages dpkg-dev and debhelper. It
works in a folder of its own, which is removed.
"""
from __future__ import annotations

import argparse
import os
import shutil
import subprocess
import sys
import tempfile
from email.utils import formatdate
from pathlib import Path

HERE = Path(__file__).resolve().parent
TOP = HERE.parent.parent
PROGRAM = TOP / "crates" / "urbd" / "out" / "urbd"
# where each file or folder of the repository goes, below the package's root
PLACES = {
    "contrib/urbd-run": "usr/bin/urbd-run",
    "contrib/urbdctl": "usr/bin/urbdctl",
    "contrib/ctl/urbdctl": "usr/share/urbd/python/urbdctl",
    "clients/python/src/urbd": "usr/share/urbd/python/urbd",
    "contrib/monitoring": "usr/share/urbd/monitoring",
    "contrib/package/completions/urbd.bash": "usr/share/bash-completion/completions/urbd",
    "contrib/package/completions/_urbd": "usr/share/zsh/vendor-completions/_urbd",
    "contrib/package/completions/urbd.fish": "usr/share/fish/vendor_completions.d/urbd.fish",
}


class Fault(Exception):
    """The package can't be made: the text says why."""


def version_of(program: Path) -> str:
    """The version that the program tells."""
    asked = [str(program), "--version"]
    said = subprocess.run(asked, capture_output=True, text=True, check=True).stdout
    words = said.split("\n", 1)[0].split(" ")
    if len(words) != 2 or words[0] != "urbd":
        raise Fault(f"{program} is no urbd")
    return words[1]


def changelog_of(version: str) -> str:
    """Debian's change log: the page CHANGELOG.md has the changes."""
    return (
        f"urbd ({version}) unstable; urgency=medium\n\n"
        "  * The page CHANGELOG.md of the sources has the changes.\n\n"
        f" -- The urbd developers <urbd@localhost>  {formatdate(localtime=False)}\n"
    )


def unit() -> str:
    """The unit of systemd, with the paths of the package."""
    return (TOP / "contrib" / "urbd.service").read_text().replace("/opt/urbd/", "/usr/bin/")


def copy(source: Path, target: Path) -> None:
    """Copies a file or a folder without what Python keeps."""
    target.parent.mkdir(parents=True, exist_ok=True)
    if source.is_dir():
        shutil.copytree(source, target, ignore=shutil.ignore_patterns("__pycache__", "tests"))
    else:
        shutil.copy(source, target)


def lay_out(program: Path, room: Path) -> None:
    """Lays out what debhelper reads: debian/, and the files that it installs."""
    version = version_of(program)
    debian = room / "debian"
    shutil.copytree(HERE / "debian", debian)
    (debian / "changelog").write_text(changelog_of(version))
    (debian / "urbd.service").write_text(unit())
    for name in ("urbd.1", "urbdctl.1"):
        shutil.copy(HERE / name, room)
    for page in [*TOP.glob("*.md"), *TOP.glob("docs/*.md"), *TOP.glob("docs/pictures/*.svg")]:
        copy(page, room / page.relative_to(TOP))
    installed = []
    for source, place in PLACES.items():
        copy(TOP / source, room / "files" / place)
        installed.append(f"files/{place} {Path(place).parent}")
    copy(program, room / "files" / "usr" / "bin" / "urbd")
    installed.append("files/usr/bin/urbd usr/bin")
    (debian / "urbd.install").write_text("\n".join(installed) + "\n")


def build(program: Path, into: Path) -> Path:
    """Makes the package, and gives its path."""
    for tool in ("dpkg-buildpackage", "dh"):
        if not shutil.which(tool):
            raise Fault(f"there is no {tool}: install Debian's packages dpkg-dev and debhelper")
    if not program.is_file():
        raise Fault(f"there is no program {program}: ./prove builds it")
    with tempfile.TemporaryDirectory(prefix="urbd-package-") as room:
        tree = Path(room, "urbd")
        tree.mkdir()
        lay_out(program.resolve(), tree)
        run = subprocess.run(
            ["dpkg-buildpackage", "-b", "-us", "-uc"],
            cwd=tree,
            capture_output=True,
            text=True,
            env={**os.environ, "LC_ALL": "C"},
        )
        if run.returncode:
            told = run.stdout[-2000:] + run.stderr[-2000:]
            raise Fault(f"dpkg-buildpackage ended with {run.returncode}:\n{told}")
        made = next(Path(room).glob("urbd_*.deb"))
        return Path(shutil.copy(made, into))


def main() -> int:
    words = argparse.ArgumentParser(
        description=__doc__, formatter_class=argparse.RawDescriptionHelpFormatter
    )
    words.add_argument(
        "program", nargs="?", type=Path, default=PROGRAM, metavar="PROGRAM", help="the built urbd"
    )
    words.add_argument(
        "--into", type=Path, default=Path("."), metavar="FOLDER", help="where the package goes"
    )
    options = words.parse_args()
    try:
        print(build(options.program, options.into))
    except (Fault, OSError, subprocess.SubprocessError) as fault:
        print(f"build.py: {fault}", file=sys.stderr)
        return 1
    return 0


if __name__ == "__main__":
    sys.exit(main())

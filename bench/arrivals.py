"""What an arrival costs, for payloads of several sizes.

    python3 -m bench.arrivals PROGRAM [PROGRAM ..] [--arrivals N]

Each PROGRAM is a built urbd. A script of `urbd replay` has three nodes. Node 1 broadcasts one
message, and node 2 stores it. Then the same packet comes to node 2 N times (100,000), which answers
`again` and stores nothing. The table has a row for each payload and a column for each program, in
microseconds of processor time an arrival. That is what the script takes, less what it takes without
the arrivals; the least of three runs counts. An arrival here includes reading the line and encoding
the packet.
"""
from __future__ import annotations

import argparse
import os
import subprocess
import sys
import tempfile
from collections.abc import Sequence
from pathlib import Path

from urbd.constants import MAX_PAYLOAD

PAYLOADS = (16, 1_024, MAX_PAYLOAD)  # bytes
ARRIVALS = 100_000
RUNS = 3


def script(length: int, arrivals: int) -> list[str]:
    """The lines of a run in which a packet with a payload of this length comes this often."""
    packet = "arrive2 1 2 1 1 2"
    begin = ["group 3 4", f"submit 1 7 1 {'x' * length}", "stored 1", packet, "stored 2"]
    return begin + [packet] * arrivals


def processor_time(program: Path, lines: Sequence[str]) -> float:
    """The seconds of processor time of a run of `urbd replay`."""
    with tempfile.TemporaryFile("w+") as file, tempfile.TemporaryFile("w+") as answers:
        file.writelines(line + "\n" for line in lines)
        file.seek(0)
        process = subprocess.Popen([program, "replay"], stdin=file, stdout=answers)
        _, status, usage = os.wait4(process.pid, 0)
        answers.seek(0)
        told = answers.read().splitlines()
    repeats = len(lines) - 5
    if status or len(told) != len(lines) or told[5:] != ["again 1.1"] * repeats:
        sys.exit(f"the run ended with {status}, after {told[:6]}")
    return float(usage.ru_utime + usage.ru_stime)


def cost(program: Path, length: int, arrivals: int) -> float:
    """The microseconds of processor time that an arrival takes."""
    both = [
        min(processor_time(program, script(length, count)) for _ in range(RUNS))
        for count in (0, arrivals)
    ]
    return 1e6 * (both[1] - both[0]) / arrivals


def main(words: Sequence[str]) -> int:
    parser = argparse.ArgumentParser(
        description=__doc__, formatter_class=argparse.RawDescriptionHelpFormatter
    )
    parser.add_argument("programs", type=Path, nargs="+", metavar="PROGRAM", help="a built urbd")
    parser.add_argument("--arrivals", type=int, default=ARRIVALS, help="arrivals of a run")
    options = parser.parse_args(words)
    if options.arrivals < 1:
        parser.error("a run has at least one arrival")
    print(f"{'bytes':>7} " + " ".join(f"{program.name:>12}" for program in options.programs))
    for length in PAYLOADS:
        costs = [cost(program, length, options.arrivals) for program in options.programs]
        print(f"{length:7} " + " ".join(f"{each:12.2f}" for each in costs), flush=True)
    return 0


if __name__ == "__main__":
    sys.exit(main(sys.argv[1:]))

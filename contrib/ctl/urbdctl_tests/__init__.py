"""Tests of `urbdctl`. Run `python3 -m unittest discover -t . -s urbdctl_tests` in contrib/ctl."""
import sys
from pathlib import Path

TOP = Path(__file__).resolve().parents[3]
sys.path[:0] = [str(TOP / "contrib" / "ctl"), str(TOP / "clients" / "python" / "src")]

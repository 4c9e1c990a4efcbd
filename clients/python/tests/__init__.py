"""Tests of the Python client. Run `python3 -m unittest discover` in clients/python."""
import sys
from pathlib import Path

sys.path.insert(0, str(Path(__file__).resolve().parent.parent / "src"))

"""Unit tests of the tools: `python3 -m unittest discover -t . -s tools/tests`."""

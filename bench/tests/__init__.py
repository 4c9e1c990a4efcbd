"""Unit tests of the benchmarks. The stub of trials/lib stands for the program."""

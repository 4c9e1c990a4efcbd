"""Benchmarks of the built program: `python3 -m bench.NAME PROGRAM`, and `--help` for its options.

`daemon` and `bursts` put a group beside redis, etcd and a floor. `reads` compares programs.
`connections`, `followers` and `recovery` measure what their names say. `memory` and `copies` count
memory. `replay` times scripts, and `arrivals` a packet that comes again and again. `gate` counts
the minutes of `rt ci`.
"""

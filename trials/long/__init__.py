"""Trials that put load and faults on running groups, with random times. Each can be run alone."""

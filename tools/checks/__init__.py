"""The comparisons that `python3 -m tools check` makes.

Each takes a tree and gives what is wrong.
"""

#!/usr/bin/env python3
"""Writes data/: the book of each trip of document 01, one rule and its words at steps 0, 1, 2 and on.

python3 crates/trips/make_books.py, at the repository's root. What the program has to print, stdout, is read off document 01 and not made here.
"""
import os

HERE = os.path.dirname(os.path.abspath(__file__))
LARGEST = 2**64 - 1

# name: the nodes in prefix order, the words
TRIPS = {
    "within_0": ("always, within 0, var 1", [0]),
    "within_1": ("always, within 1, var 1", [0]),
    "whole_case": ("always, implies, var 0, within 3, var 1", [1, 0, 0]),
    "whole_case_answered": ("always, implies, var 0, within 3, var 1", [1, 0, 2]),
    "second_trigger": ("always, implies, var 0, within 2, var 1", [1, 1]),
    "one_of_two": ("always, or, var 0, var 1", [1, 2, 0]),
    "next_step": ("always, implies, var 0, next, var 1", [1, 0]),
    "either_always": ("or, always, var 0, always, var 1", [2, 1]),
    "bare_signal": ("var 0", [1, 0]),
    "bare_within": ("within 2, var 0", [0, 0]),
    "bare_within_answered": ("within 2, var 0", [1, 0, 0, 0]),
    "always_for_1": ("always-for 1, implies, var 0, next, var 1", [0, 1, 0]),
    "always_for_0": ("always-for 0, var 0", []),
    "always_for_0_nested": ("always, always-for 0, var 0", []),
    "eventually_or": ("or, eventually, var 0, var 1", []),
    "eventually_and": ("and, eventually, var 0, always, var 1", []),
    "bound_0": ("within 0, var 1", []),
    "bound_1": ("within 1, var 1", []),
    "bound_3": ("within 3, var 1", []),
    "bound_4": ("within 4, var 1", []),
    "bound_largest": (f"within {LARGEST}, var 1", []),
}


def node_lines(nodes):
    return [node.replace(" ", "\t") for node in nodes.split(", ")]


def write(name, lines):
    with open(os.path.join(HERE, "data", name), "w", newline="\n") as f:
        f.write("\n".join(lines) + "\n")


os.makedirs(os.path.join(HERE, "data"), exist_ok=True)
for name, (nodes, words) in TRIPS.items():
    write(name, ["rule\ttrip\tP"] + node_lines(nodes) + [f"step\t{s}\t{w:016x}" for s, w in enumerate(words)])

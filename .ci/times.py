#!/usr/bin/env python3
"""Tells what each crate cost in the gate, in seconds by the clock, the slowest first.

usage: times.py crates.txt < LINES     each line is a second, a space, and what rt ci said then; the first is its begin

rt ci says when a proof or the proof of a crate's tests has ended, and not when it began. It can begin once the
crate's libraries are proved, and begins once a processor is free. So `proof` and `tests` are the time from the proof
of the last library, or from the begin of the gate, to the line: each is at most so long, waiting included.
Of the edits it says when they begin, and not when they end: the answers to all of them come together, once nothing
is left to prove. So `edits` is the time up to then, and the edits of a crate may have ended long before.
A crate without tests or edits has `-` there, and so has one of which the gate said nothing.
"""
import re
import sys


def libraries(path):
    """For each crate of crates.txt, the crates of the repository that it stands on."""
    named = {}
    with open(path, encoding="utf-8") as file:
        for line in file:
            before, colon, behind = line.partition("#")[0].partition(":")
            if colon and before.split():
                named[before.split()[0]] = behind.split()
    return {name: [it for it in below if it in named] for name, below in named.items()}


def main():
    below = libraries(sys.argv[1])
    said = [(int(at), text) for at, _, text in (line.rstrip("\n").partition(" ") for line in sys.stdin)]
    begin, end = said[0][0], said[-1][0]
    proof, tests, edits, answered = {}, {}, {}, None
    for at, text in said:
        found = re.match(r"rt: (\w+)(?:(: its tests are)? (?:proved|NOT PROVED)|: (trying) its must-fail edits)", text)
        if found:
            name, is_tests, is_edits = found.groups()
            (tests if is_tests else edits if is_edits else proof)[name] = at
        elif text.startswith("rt: must-fail ") and answered is None:
            answered = at

    rows = []
    for name, libs in below.items():
        ready = max([begin, *(proof.get(it, begin) for it in libs)])
        ended = [it[name] - ready if name in it else None for it in (proof, tests)]
        tried = answered - edits[name] if name in edits and answered is not None else None
        rows.append((max(it or 0 for it in ended), name, *ended, tried))
    width = max(map(len, below))
    print(f"times: at most so many seconds each, waiting for a processor included; rt ci took {end - begin} in all")
    print(f"times: {'crate':{width}} {'proof':>7} {'tests':>7} {'edits':>7}")
    for _, name, *cells in sorted(rows, key=lambda row: (-row[0], row[1])):
        print(f"times: {name:{width}}" + "".join(f" {'-' if it is None else it:>7}" for it in cells))


if __name__ == "__main__":
    main()

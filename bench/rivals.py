#!/usr/bin/env python3
"""Links names with many definitions, and prints how the time grows.

    python3 bench/rivals.py [PROGRAM] [COUNT..]

PROGRAM is the built program, crates/link_program/out/link_program by default (./wolzhyke builds it). COUNT is a number
of rivals, by default 1000, 10000 and 100000. `one` is one name that so many objects define weakly, `pairs` are so many
names that each of two objects defines weakly. Prints a line for each: processor seconds, the least of three runs, and
the most memory that was held.
"""

import json
import os
import sys
import tempfile

from words import program_and_counts


def weak(name):
    return {"name": name, "place": 1, "bind": "weak"}


def one(count):
    return {"objects": [{"name": f"o{i}.o", "sections": 2, "symbols": [weak("foo")]} for i in range(count)]}


def pairs(count):
    names = [weak(f"name{i}") for i in range(count)]
    return {"objects": [{"name": name, "sections": 2, "symbols": names} for name in ("a.o", "b.o")]}


def run(program, manifest):
    """The processor seconds that the program took, and the most KiB that it held."""
    with tempfile.TemporaryDirectory() as folder:
        source = os.path.join(folder, "manifest.json")
        with open(source, "w") as file:
            json.dump(manifest, file, separators=(",", ":"))
        child = os.fork()
        if child == 0:
            os.dup2(os.open(source, os.O_RDONLY), 0)
            os.dup2(os.open(os.devnull, os.O_WRONLY), 1)
            os.execv(program, [program, "link", "1"])
        _, status, usage = os.wait4(child, 0)
        if status != 0:
            sys.exit(f"{program} ended with status {os.waitstatus_to_exitcode(status)}")
        return usage.ru_utime + usage.ru_stime, usage.ru_maxrss


def main():
    program, counts = program_and_counts("link_program", [1000, 10000, 100000])
    print(f"{'kind':>5} {'rivals':>7} {'s':>7} {'MB held':>8}")
    for name, make in (("one", one), ("pairs", pairs)):
        for count in counts:
            runs = [run(program, make(count)) for _ in range(3)]
            seconds, held = min(runs)
            print(f"{name:>5} {count:7} {seconds:7.3f} {held / 1024:8.1f}", flush=True)


if __name__ == "__main__":
    main()

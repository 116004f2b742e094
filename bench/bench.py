#!/usr/bin/env python3
"""Runs the program on manifests that grow, and prints how its time and memory grow, and what more workers give.

    python3 bench/bench.py [PROGRAM] [COUNT..]

PROGRAM is the built program, crates/link_program/out/link_program by default (`rt run` in its crate builds it). COUNT is
a number of archive members, by default 1000, 10000 and 100000. A chain is main.o and members of which each refers to the
next, or to the next ten; a fan is a main.o that refers to every member, and members that refer to one or ten others,
spread over all. Every member is loaded in each. A mixed link has a tenth as many objects of a hundred symbols each:
plain and versioned definitions, weak and common rivals, a COMDAT group that ten objects share, and references. `bulk`
is the made-up link of so many members. The greatest ones are run with 1, 2, 4 and 8 workers, the others with one.
Prints a line for each: its size, the number of symbols, the seconds that the program took, its microseconds a symbol,
and the most memory that it held.
"""

import json
import os
import sys
import tempfile
import time

from words import program_and_counts


def member(i, targets):
    symbols = [{"name": f"t{i}", "place": 1}]
    symbols += [{"name": f"t{t}", "place": "undefined"} for t in targets]
    return {"name": f"m{i}.o", "archive": True, "sections": 2, "symbols": symbols}


def chain(count, references):
    main = {"name": "main.o", "symbols": [{"name": "t1", "place": "undefined"}]}
    members = [member(i, range(i + 1, min(i + references, count) + 1)) for i in range(1, count + 1)]
    return {"objects": [main] + members}


def fan(count, references):
    asked = [{"name": f"t{i}", "place": "undefined"} for i in range(1, count + 1)]
    spread = [member(i, [1 + (i * 7919 + k * 104729) % count for k in range(references)]) for i in range(1, count + 1)]
    return {"objects": [{"name": "main.o", "symbols": asked}] + spread}


def mixed(count, references):
    objects = []
    for i in range(count // 10):
        symbols = [{"name": f"inline_function_{i // 10}", "place": 1, "bind": "weak"}]
        for k in range(49):
            symbols.append({"name": f"_ZN4some9namespace8function{i}_{k}Ev", "place": 3, "kind": "func"})
        symbols += [{"name": f"versioned_{i}_{k}", "place": 3, "version": "LIB_1"} for k in range(10)]
        symbols += [{"name": f"rival_{i // 4}_{k}", "place": "common", "size": 4 + i % 3} for k in range(10)]
        symbols += [{"name": f"default_{i // 3}_{k}", "place": 3, "bind": "weak"} for k in range(10)]
        for k in range(references):
            target = (i * 7919 + k * 104729) % (count // 10)
            symbols.append({"name": f"_ZN4some9namespace8function{target}_{k}Ev", "place": "undefined"})
        groups = [{"header": 2, "signature": 1, "members": [1]}]
        objects.append({"name": f"object{i}.o", "sections": 4, "symbols": symbols, "groups": groups})
    return {"output": "shared", "version_script": "LIB_1 { global: versioned_*; };", "objects": objects}


def run(program, words, manifest):
    """The seconds that the program took, the most KiB that it held, and the size of what it read."""
    with tempfile.TemporaryDirectory() as folder:
        source, sink = os.path.join(folder, "manifest.json"), os.path.join(folder, "report")
        with open(source, "w") as file:
            json.dump(manifest, file, separators=(",", ":"))
        size = os.path.getsize(source)
        start = time.monotonic()
        child = os.fork()
        if child == 0:
            os.dup2(os.open(source, os.O_RDONLY), 0)
            os.dup2(os.open(sink, os.O_WRONLY | os.O_CREAT, 0o600), 1)
            os.execv(program, [program, *words])
        _, status, usage = os.wait4(child, 0)
        seconds = time.monotonic() - start
        if status != 0:
            sys.exit(f"{program} ended with status {os.waitstatus_to_exitcode(status)}")
        return seconds, usage.ru_maxrss, size


def show(name, references, count, workers, size, symbols, seconds, held):
    print(f"{name:>6} {references:4} {count:8} {workers:7} {size / 1e6:7.2f} {symbols:8} {seconds:7.3f} "
          f"{seconds * 1e6 / symbols:9.2f} {held / 1024:8.1f}", flush=True)


def main():
    program, counts = program_and_counts("link_program", [1000, 10000, 100000])
    print(f"{'shape':>6} {'refs':>4} {'members':>8} {'workers':>7} {'MB':>7} {'symbols':>8} {'s':>7} {'us/symbol':>9} {'MB held':>8}")
    # First, since what this program holds itself counts as held by what it starts.
    for count in counts:
        for workers in (1, 2, 4, 8) if count == max(counts) else (1,):
            seconds, held, _ = run(program, ["bulk", str(count), str(workers)], None)
            show("bulk", "", count, workers, 0, 3 + 4 * count, seconds, held)
    for name, shape, each in (("chain", chain, (1, 10)), ("fan", fan, (1, 10)), ("mixed", mixed, (20,))):
        for references in each:
            for count in counts:
                manifest = shape(count, references)
                symbols = 1 + sum(1 + len(o["symbols"]) for o in manifest["objects"])
                for workers in (1, 2, 4, 8) if count == max(counts) and references > 1 else (1,):
                    seconds, held, size = run(program, ["link", str(workers)], manifest)
                    show(name, references, count, workers, size, symbols, seconds, held)


if __name__ == "__main__":
    main()

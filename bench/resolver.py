#!/usr/bin/env python3
"""Times how the files of a link come into a database and its objects are loaded, beside a plain map and plain work lists.

    python3 bench/resolver.py [PROGRAM] [OBJECTS..]

PROGRAM is the built program, crates/link_tests_core/out/link_tests_core by default (`rt run` in its crate builds it).
OBJECTS is how many objects there are, by default 100001, of which all but one are members of archives, and all come to
be loaded. In a line each refers to the next one; in a chain to the next ten; in a fan the first refers to all, and each
other to ten, spread over all; in a tree each refers to two. A line for each number of workers, on as many processors. The kinds run in turn, nine
times, so that other work on the machine meets all alike; the figures are the least of these runs. `map s` puts the
names that the objects define into a plain map; `add s` adds all files to a database as one batch. `load s` is the
resolver's call for a batch alone, behind the reading of all names into the database; `point s` is the one behind the
last batch, which points symbols to what they stand for; `names s` is one work list that looks each name up in that
database, shares nothing and notes marks alone; `list s` is `least_closed` over the edges, which looks no name up. The
last columns are the time to load, to that of one worker and to that of the list that looks names up.
"""

import os
import sys

from words import program_and_counts


STEPS = ("mapped", "added", "loaded", "pointed", "looked up", "listed")


def run(program, kind, objects, workers):
    """Microseconds of each step, by its name; and how many requests there are."""
    reader, writer = os.pipe()
    figures, sink = os.pipe()
    child = os.fork()
    if child == 0:
        os.sched_setaffinity(0, range(min(workers, os.cpu_count())))
        os.dup2(writer, 2)
        os.dup2(sink, 1)
        os.execv(program, [program, kind, str(objects), str(workers)])
    os.close(writer)
    os.close(sink)
    with os.fdopen(reader) as pipe:
        steps = {step: int(micros) for step, micros in (line.rsplit(" ", 1) for line in pipe)}
    with os.fdopen(figures) as pipe:
        lines = pipe.read().split("\n")
    _, status = os.waitpid(child, 0)
    counts = lines[1].split() if len(lines) > 1 else []
    if status != 0 or set(steps) != set(STEPS) or counts[:3] != [str(objects)] * 3:
        sys.exit(f"{program} ended with status {os.waitstatus_to_exitcode(status)}")
    return steps, int(counts[3])


def main():
    program, counts = program_and_counts("link_tests_core", [100001])
    print(f"{'kind':>5} {'objects':>8} {'requests':>8} {'workers':>7} {'map s':>7} {'add s':>7} {'load s':>7} {'point s':>7} "
          f"{'names s':>7} {'list s':>7} {'to one':>6} {'to names':>8}")
    tasks = [(kind, workers) for kind in ("line", "chain", "fan", "tree") for workers in (1, 2, 4, 8)]
    for objects in counts:
        rounds = [[run(program, kind, objects, workers) for kind, workers in tasks] for _ in range(9)]
        base = {}
        for at, (kind, workers) in enumerate(tasks):
            least = {step: min(each[at][0][step] for each in rounds) / 1e6 for step in STEPS}
            load, names = least["loaded"], least["looked up"]
            base.setdefault(kind, (load, names))
            print(f"{kind:>5} {objects:8} {rounds[0][at][1]:8} {workers:7} {least['mapped']:7.3f} {least['added']:7.3f} {load:7.3f} "
                  f"{least['pointed']:7.3f} {names:7.3f} {least['listed']:7.3f} {load / base[kind][0]:6.2f} {load / base[kind][1]:8.2f}", flush=True)


if __name__ == "__main__":
    main()

#!/usr/bin/env python3
"""Threads at a desk for a while, and a caller of a desk to whom each allocation is refused in turn.

    tools/desk.py PROGRAM soak [SECONDS]
    tools/desk.py PROGRAM refuse

PROGRAM is that of link_tests_desk (`tools/build_with_checks link_tests_desk PROGRAM`). `soak` lets eight threads add 250
batches and ask 500 names again and again, for a minute if no time is given; each time the history has to be that of one
caller. `refuse` runs one caller twice for each of its allocations: that one alone is refused, or that one and all behind
it. It has to end with status 6 where the desk was not opened or what is made for a call lacked memory, or with a history
that is that of one caller: all calls were made, some were not, or a batch for which the session lacked memory ended it.
The status is 1 where a run ended otherwise.
"""
import collections
import pathlib
import subprocess
import sys
import tempfile
import time

from refuse_allocations import built_library, ran

TOGETHER = b"250 batches and 500 questions of 8 threads: as of one\n"
ALONE = {b"all calls were made\n", b"some calls were not made\n", b"ended\n"}


def soak(program, seconds):
    """How many runs there were, and those that ended otherwise."""
    end, runs, wrong = time.monotonic() + seconds, 0, []
    while runs == 0 or time.monotonic() < end:
        runs += 1
        done = subprocess.run([program, "together"], capture_output=True, timeout=300)
        if (done.returncode, done.stdout) != (0, TOGETHER):
            wrong.append(f"run {runs}: status {done.returncode}, {done.stdout[:80]!r}")
    return f"{runs} runs of 8 threads", wrong


def refuse(program):
    """How each run ended, and those that ended otherwise."""
    ends, wrong = collections.Counter(), []
    with tempfile.TemporaryDirectory() as folder:
        library = built_library(pathlib.Path(folder))
        status, text, count = ran(library, program, "alone", b"", 0, 0)
        if (status, text) != (0, b"all calls were made\n") or count == 0:
            wrong.append(f"none refused: status {status}, {count} allocations, {text!r}")
        for number in range(1, count + 1):
            for last in (number, sys.maxsize):
                status, text, _ = ran(library, program, "alone", b"", number, last)
                ends[text.decode().strip() or f"status {status}"] += 1
                if (status, text) != (6, b"") and (status != 0 or text not in ALONE):
                    wrong.append(f"allocation {number}: status {status}, {text[:80]!r}")
    return f"{count} allocations: " + ", ".join(f"{end} {times}" for end, times in sorted(ends.items())), wrong


def main(words):
    if len(words) == 2 and words[1] == "refuse":
        told, wrong = refuse(str(pathlib.Path(words[0]).resolve()))
    elif len(words) in (2, 3) and words[1] == "soak":
        told, wrong = soak(str(pathlib.Path(words[0]).resolve()), float(words[2]) if len(words) == 3 else 60)
    else:
        print(__doc__)
        return 0 if words in (["--help"], ["-h"]) else 2
    print(told)
    for line in wrong:
        print(line, file=sys.stderr)
    return 1 if wrong else 0


if __name__ == "__main__":
    sys.exit(main(sys.argv[1:]))

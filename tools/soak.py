#!/usr/bin/env python3
"""Runs a built program on generated commands beside an independent program, for a time, in slices that end by themselves.

    tools/soak.py PROGRAM --cases 'COMMAND' [--seconds S] [--from SEED] [--seeds N] [--slice N] [--jobs J] [--workers W,W,..]

COMMAND FOLDER N SEED (the last three words are put behind it) writes the cases of N seeds from SEED on into a folder:
for each one SEED.json, standard input; SEED.words, the words; SEED.status and SEED.out, the status and the bytes that
are due, by a program that shares no code with the one that is tried. A slice is N of them (200 if not given). J slices
(one a processor) run side by side, and for S seconds (60 if not given) new ones begin, until N seeds are done. Each
case runs with its own words, and where these end with a number of workers with another one too, or with each of those
that --workers names. Prints a line for each slice with its seeds, and at the end where to go on. A case whose status or
bytes differ, that ends by a signal, or that takes more than a processor second, is told and left in soak_differs/; then
the status is 1. It is fastest where TMPDIR is in memory.
"""
import argparse
import concurrent.futures
import os
import pathlib
import resource
import shlex
import shutil
import subprocess
import sys
import tempfile
import time

# Processor seconds that a case may take. A whole number, since it is a limit of the system, by which a run is ended.
SECONDS = 1
WORKERS = (1, 3, 16)
# The commands that end with a number of workers, which no byte depends on.
BY_WORKERS = ("link", "why")


def all_words(seed, words, workers):
    """The words, and where they end with a number of workers also those with each of these numbers, or with another one."""
    command, _, number = words.partition(" ")
    if command not in BY_WORKERS or not number.isdigit():
        return [words]
    others = workers or [WORKERS[seed % len(WORKERS)]]
    return [words, *(f"{command} {other}" for other in others if str(other) != number)]


def ran(program, words, stdin, stdout):
    """Runs the program from one file to another, and answers its status and what it wrote."""
    files = (os.POSIX_SPAWN_OPEN, 0, stdin, os.O_RDONLY, 0), (os.POSIX_SPAWN_OPEN, 1, stdout, os.O_WRONLY | os.O_CREAT | os.O_TRUNC, 0o600)
    child = os.posix_spawn(program, [program, *words.split()], os.environ, file_actions=files)
    # It may have ended, but is there until it is waited for.
    resource.prlimit(child, resource.RLIMIT_CPU, (SECONDS, SECONDS))
    status = os.waitstatus_to_exitcode(os.waitpid(child, 0)[1])
    return status, stdout.read_bytes()


def tried(program, cases, workers, count, seed):
    """Runs a slice. Answers which seeds and how many runs it was, how often each status came, and lines for what differs."""
    runs, statuses, differ = 0, {}, []
    with tempfile.TemporaryDirectory() as name:
        folder = pathlib.Path(name)
        subprocess.run([*cases, folder, str(count), str(seed)], check=True, stdout=subprocess.DEVNULL)
        for case in range(seed, seed + count):
            due = int((folder / f"{case}.status").read_text()), (folder / f"{case}.out").read_bytes()
            for words in all_words(case, (folder / f"{case}.words").read_text(), workers):
                got = ran(program, words, folder / f"{case}.json", folder / "got")
                runs += 1
                statuses[got[0]] = statuses.get(got[0], 0) + 1
                if got != due:
                    differ.append(f"seed {case}, {words!r}: status {got[0]}, not {due[0]}, or other bytes: {got[1][:80]!r}")
                    kept = pathlib.Path("soak_differs")
                    kept.mkdir(exist_ok=True)
                    for end in ("json", "words", "out", "status"):
                        shutil.copy(folder / f"{case}.{end}", kept)
    return seed, count, runs, statuses, differ


def main():
    reader = argparse.ArgumentParser(usage=__doc__)
    reader.add_argument("program")
    reader.add_argument("--cases", required=True, type=shlex.split)
    reader.add_argument("--seconds", type=float, default=60)
    reader.add_argument("--from", type=int, default=0, dest="first")
    reader.add_argument("--seeds", type=int, default=sys.maxsize)
    reader.add_argument("--slice", type=int, default=200)
    reader.add_argument("--jobs", type=int, default=os.cpu_count())
    reader.add_argument("--workers", default=[], type=lambda text: [int(number) for number in text.split(",")])
    given = reader.parse_args()
    program, end = os.path.abspath(given.program), time.monotonic() + given.seconds
    seed, behind = given.first, given.first + given.seeds
    all_runs, all_statuses, differ, running = 0, {}, 0, set()
    with concurrent.futures.ProcessPoolExecutor(given.jobs) as pool:
        while True:
            while len(running) < given.jobs and seed < behind and time.monotonic() < end:
                count = min(given.slice, behind - seed)
                running.add(pool.submit(tried, program, given.cases, given.workers, count, seed))
                seed += count
            if not running:
                break
            done, running = concurrent.futures.wait(running, return_when=concurrent.futures.FIRST_COMPLETED)
            for first, count, runs, statuses, lines in (one.result() for one in done):
                print(f"seeds {first} to {first + count - 1}: {runs} runs, {len(lines)} differ", flush=True)
                for line in lines:
                    print(line, file=sys.stderr)
                all_runs, differ = all_runs + runs, differ + len(lines)
                for status, count in statuses.items():
                    all_statuses[status] = all_statuses.get(status, 0) + count
    by_status = ", ".join(f"{count} with status {status}" for status, count in sorted(all_statuses.items()))
    print(f"{all_runs} runs ({by_status}), {differ} differ; go on with --from {seed}")
    sys.exit(1 if differ else 0)


if __name__ == "__main__":
    main()

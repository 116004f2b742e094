#!/usr/bin/env python3
"""Compares `check` with `link` on the links of bench.py, and prints what it takes to check a claim of an answer.

    python3 bench/claim.py [PROGRAM] [COUNT..]

PROGRAM and COUNT are those of bench.py, with 100000 members by default. `tools/claim` makes the claim of the program's
own answer, which takes longest. Then three commands run with one worker, three times in turn: `link` on the manifest,
`link` on the manifest with the claim, which reads the claim and asks nothing of it, and `check` on that one. Prints a
line for each link: its symbols, the least processor seconds of these commands, those of `check` to those of the first
one, and the most memory that the first one and `check` held.
"""
import json
import multiprocessing
import os
import pathlib
import sys
import tempfile

from bench import chain, fan, mixed
from words import program_and_counts

sys.path.insert(0, str(pathlib.Path(__file__).resolve().parents[1] / "tools"))

from claimed.main import claimed  # noqa: E402

PLAIN, CLAIM = "manifest.json", "claim.json"
COMMANDS = (("link", PLAIN), ("link", CLAIM), ("check", CLAIM))


def run(program, words, source, sink):
    """The processor seconds that the program took from one file to another, and the most KiB that it held."""
    child = os.fork()
    if child == 0:
        os.dup2(os.open(source, os.O_RDONLY), 0)
        os.dup2(os.open(sink, os.O_WRONLY | os.O_CREAT | os.O_TRUNC, 0o600), 1)
        os.execv(program, [program, *words])
    _, status, usage = os.wait4(child, 0)
    if status != 0:
        sys.exit(f"{program} ended with status {os.waitstatus_to_exitcode(status)}")
    return usage.ru_utime + usage.ru_stime, usage.ru_maxrss


def write_manifests(program, folder, shape, count, references):
    """Writes a manifest, and one with a claim of what the program answers."""
    manifest = shape(count, references)
    plain, *lines = (os.path.join(folder, name) for name in (PLAIN, "link", "why"))
    with open(plain, "w") as file:
        json.dump(manifest, file, separators=(",", ":"))
    for command, path in zip(("link", "why"), lines):
        run(program, [command, "1"], plain, path)
    with_claim, told = claimed(plain, *lines)
    if told:
        sys.exit(f"the lines contradict one another about {told[0]}")
    pathlib.Path(folder, CLAIM).write_bytes(with_claim)


def count_symbols(folder):
    """How many symbols the claim of a link tells of."""
    with open(os.path.join(folder, "link")) as file:
        return sum(line.startswith("symbol ") for line in file)


def measured(program, *link):
    """The symbols of a link, and for each command the least processor seconds and the most KiB that it held."""
    with tempfile.TemporaryDirectory() as folder:
        # By another process, since what this one holds counts as held by what it starts.
        writer = multiprocessing.Process(target=write_manifests, args=(program, folder, *link))
        writer.start()
        writer.join()
        if writer.exitcode != 0:
            sys.exit(f"no claim was made: status {writer.exitcode}")
        sink, runs = os.path.join(folder, "sink"), []
        for _ in range(3):
            for command, source in COMMANDS:
                words = [command] if command == "check" else [command, "1"]
                runs.append(run(program, words, os.path.join(folder, source), sink))
            if pathlib.Path(sink).read_text() != "holds\n":
                sys.exit(f"{program} says of its own answer: {pathlib.Path(sink).read_text()}")
        each = [runs[at::len(COMMANDS)] for at in range(len(COMMANDS))]
        return count_symbols(folder), [(min(seconds for seconds, _ in one), max(held for _, held in one)) for one in each]


def main():
    program, counts = program_and_counts("link_program", [100000])
    print(f"{'shape':>6} {'refs':>4} {'members':>8} {'symbols':>8} {'link s':>7} {'claimed s':>9} {'check s':>7} {'to link':>7} "
          f"{'link MB':>8} {'check MB':>8}")
    for name, shape, each in (("chain", chain, (1, 10)), ("fan", fan, (1, 10)), ("mixed", mixed, (20,))):
        for references in each:
            for count in counts:
                symbols, ((link, link_held), (read, _), (check, check_held)) = measured(program, shape, count, references)
                print(f"{name:>6} {references:4} {count:8} {symbols:8} {link:7.3f} {read:9.3f} {check:7.3f} {check / link:7.2f} "
                      f"{link_held / 1024:8.1f} {check_held / 1024:8.1f}", flush=True)


if __name__ == "__main__":
    main()

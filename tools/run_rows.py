#!/usr/bin/env python3
"""Runs a built program on the worked examples and the commands of this folder, and compares each byte and each status.

    tools/run_rows.py PROGRAM

Each manifest is linked with 1, 2, 7 and 256 workers. What differs is told by name; then the status is 1.
"""
import json
import pathlib
import subprocess
import sys

WORLDS = ["rows", "script_rows", "guard_rows", "rival_rows", "worlds", "batch_rows", "batch_worlds"]
COMMANDS = ["command_rows", "claim_rows", "gc_rows"]
WORKERS = [1, 2, 7, 256]


def worked_examples(folder):
    """Each manifest with each number of workers: a name, the words, standard input, the status, and what is to be written."""
    for name in WORLDS:
        for line in (folder / f"{name}.jsonl").read_text().splitlines():
            row = json.loads(line)
            status = 1 if row["expected"].startswith("error: ") else 0
            manifest = json.dumps(row["manifest"])
            for workers in WORKERS:
                yield f"{row['name']}, {workers} workers", f"link {workers}", manifest, status, row["expected"]


def commands(folder):
    """Commands with their words, as `worked_examples`."""
    for name in COMMANDS:
        for line in (folder / f"{name}.jsonl").read_text().splitlines():
            row = json.loads(line)
            yield row["name"], row["words"], row["stdin"], row["status"], row["stdout"]


def main():
    if len(sys.argv) != 2 or sys.argv[1] in ("-h", "--help"):
        print(__doc__.strip())
        sys.exit(0 if sys.argv[1:] in (["-h"], ["--help"]) else 2)
    program = sys.argv[1]
    folder = pathlib.Path(__file__).parent
    failed = run = 0
    for name, words, stdin, status, stdout in [*worked_examples(folder), *commands(folder)]:
        done = subprocess.run([program, *words.split()], input=stdin.encode(), capture_output=True)
        run += 1
        if (done.returncode, done.stdout) != (status, stdout.encode()):
            failed += 1
            print(f"{name}: status {done.returncode}, not {status}, or other bytes: {done.stdout[:200]!r}", file=sys.stderr)
    # The greatest made-up link, whose summary no number of workers changes.
    one, many = (subprocess.run([program, "bulk", "100000", workers], capture_output=True) for workers in ("1", "8"))
    run += 1
    if one.returncode != 0 or (one.returncode, one.stdout) != (many.returncode, many.stdout):
        failed += 1
        print(f"bulk 100000: {one.stdout!r} with one worker, {many.stdout!r} with eight", file=sys.stderr)
    print(f"{run} runs, {failed} differ")
    sys.exit(1 if failed else 0)


if __name__ == "__main__":
    main()

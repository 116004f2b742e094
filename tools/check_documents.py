#!/usr/bin/env python3
"""Runs the examples of the documents, and compares every byte that they show.

    tools/check_documents.py PROGRAM [DOCUMENT..]

PROGRAM is the built program. Without a DOCUMENT, README.md and docs/*.md are read.

An example is a code block, fenced or indented, in which a line `$ COMMAND` runs ./wolzhyke. Lines `> ..` behind it go
on with the command, and the lines behind these, up to the next `$ ` or the end of the block, are all that it writes. A
```json block is a manifest: it stands as manifest.json for the example that follows it. Commands run by bash in a new
folder, where ./wolzhyke is PROGRAM and `examples` are those of the repository.

What differs is told with file and line, and so is an example that can't run, a manifest that no example reads, and a
document without an example that should have one. Then the status is 1.
"""
import json
import pathlib
import re
import subprocess
import sys
import tempfile

TOP = pathlib.Path(__file__).resolve().parent.parent
MUST_HAVE_EXAMPLES = {"MANIFEST.md", "DECISIONS.md"}
SECONDS = 60


def blocks(lines):
    """The code blocks: the word behind the fence, if any, the number of the first line inside, and the lines."""
    at = 0
    while at < len(lines):
        fence = re.match(r"( *)```(\w*)$", lines[at])
        example = re.match(r"( {4,})\$ ", lines[at])
        start = at + 1 if fence else at
        at += 1
        if fence:
            while at < len(lines) and lines[at].strip() != "```":
                at += 1
            yield fence[2], start + 1, [line[len(fence[1]):] for line in lines[start:at]]
            at += 1
        elif example:
            while at < len(lines) and lines[at].startswith(example[1]):
                at += 1
            yield "", start + 1, [line[len(example[1]):] for line in lines[start:at]]


def commands(start, lines):
    """The commands of a block, each with the number of its line and what it is to write."""
    found = []
    for number, line in enumerate(lines, start):
        if line.startswith("$ "):
            found.append([number, line[2:], ""])
        elif line.startswith("> ") and found and not found[-1][2]:
            found[-1][1] += "\n" + line[2:]
        elif found:
            found[-1][2] += line + "\n"
    return found


def run(command, folder):
    """What a command writes, on both streams."""
    try:
        done = subprocess.run(["bash", "-c", command], cwd=folder, capture_output=True, timeout=SECONDS)
    except subprocess.TimeoutExpired:
        return f"(not done after {SECONDS} seconds)\n"
    return (done.stdout + done.stderr).decode(errors="backslashreplace")


def prepared(folder, program):
    """A folder in which the commands of the documents find what they name."""
    (folder / "examples").symlink_to(TOP / "examples")
    script = folder / "wolzhyke"
    script.write_text(f"#!/bin/sh\nexec '{program}' \"$@\"\n")
    script.chmod(0o755)


def faults(path, folder):
    """What is wrong with the examples of a document, each with its line, and how many commands it has."""
    count, manifest, told = 0, None, []
    for word, start, lines in blocks(path.read_text().split("\n")):
        if word == "json":
            if manifest:
                told.append((manifest, "no example reads this manifest"))
            manifest = start
            (folder / "manifest.json").write_text("\n".join(lines) + "\n")
            try:
                json.loads("\n".join(lines))
            except ValueError as error:
                told.append((start, f"no JSON: {error}"))
            continue
        found = commands(start, lines)
        if not any("wolzhyke" in command for _, command, _ in found):
            continue
        for number, command, due in found:
            count += 1
            if "wolzhyke" in command and not re.search(r"\./wolzhyke (link|why|gc|check|verdef|bulk)\b", command):
                told.append((number, f"can't run: {command}"))
                continue
            if "manifest.json" in command:
                manifest = None
            came = run(command, folder)
            if came != due:
                told.append((number, f"another output of {command}\n--- shown\n{due}--- written\n{came}---"))
    if manifest:
        told.append((manifest, "no example reads this manifest"))
    if count == 0 and path.name in MUST_HAVE_EXAMPLES:
        told.append((1, "no example"))
    return count, told


def main():
    if len(sys.argv) < 2 or sys.argv[1] in ("-h", "--help"):
        print(__doc__.strip())
        sys.exit(0 if len(sys.argv) > 1 else 2)
    program = pathlib.Path(sys.argv[1]).resolve()
    usual = [TOP / "README.md", *sorted((TOP / "docs").glob("*.md"))]
    documents = [pathlib.Path(word) for word in sys.argv[2:]] or usual
    run_of_all = failed = 0
    for path in documents:
        with tempfile.TemporaryDirectory() as name:
            prepared(pathlib.Path(name), program)
            count, told = faults(path, pathlib.Path(name))
        run_of_all += count
        failed += len(told)
        for line, what in told:
            print(f"{path}:{line}: {what}", file=sys.stderr)
    print(f"{run_of_all} examples in {len(documents)} documents, {failed} faults")
    sys.exit(1 if failed else 0)


if __name__ == "__main__":
    main()

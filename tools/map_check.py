#!/usr/bin/env python3
"""Compares docs/MAP.md with crates.txt and with the sources. Each difference is one line, and the status is then 1.

An item of the map begins with '- `HEAD`:' or with '- `HEAD`,' and goes on in indented lines.
- 'Stands on: A, B.' at its end lists what the crate HEAD stands on; 'Stands on: nothing.' that it stands on no other.
  'No crate stands on it.' in such an item says that HEAD stands in no other list.
- 'Definitions: `a`, `b`.' or 'Laws: `a`, `b`.' at its end lists what stands in the file HEAD.
- What stands between backticks anywhere and has a slash in it is a file or a folder of the repository.
"""

import argparse
import re
import sys
from pathlib import Path

TOP = Path(__file__).resolve().parent.parent
ITEM = re.compile(r"^- `([^`]+)`[:,](.*(?:\n[ ]+.*)*)", re.MULTILINE)
STANDS_ON = re.compile(r"Stands on: ([^.]*)\.\s*$")
HOLDS = re.compile(r"(?:Definitions|Laws): ([^.]*)\.\s*$")
ALONE = "No crate stands on it."
MARKS = re.compile(r"(?:Stands on|Definitions|Laws): ")
NAMED = re.compile(r"`([^`\s]+)`")
FENCED = re.compile(r"^```.*?^```$", re.MULTILINE | re.DOTALL)


def crates_of(text):
    """What each crate of a crates.txt stands on: a line is 'NAME [KEY=VALUE..]: NAME NAME', and '#' starts a comment."""
    crates = {}
    for line in text.splitlines():
        line = line.partition("#")[0]
        if line.strip():
            name, _, others = line.partition(":")
            crates[name.split()[0]] = others.split()
    return crates


def items_of(text):
    """The items of a map, each by its head and the text behind it on one line."""
    return [(head, " ".join(rest.split())) for head, rest in ITEM.findall(FENCED.sub("", text))]


def told_crates(items):
    """What each crate of a map stands on, in the order of the map."""
    told = []
    for head, text in items:
        found = STANDS_ON.search(text)
        if found:
            told.append((head, [] if found[1] == "nothing" else found[1].split(", ")))
    return told


def crate_faults(told, crates):
    """Crates and dependencies that are missing or surplus, and crates that come before what they stand on."""
    faults = [f"{name}: is not in the map" for name in crates if name not in dict(told)]
    seen = set()
    for name, others in told:
        if name not in crates:
            faults.append(f"{name}: is no crate of crates.txt")
            continue
        if name in seen:
            faults.append(f"{name}: stands in the map twice")
        seen.add(name)
        missing = [other for other in crates[name] if other not in others]
        surplus = [other for other in others if other not in crates[name]]
        later = [other for other in others if other in crates and other not in seen]
        faults += [f"{name}: stands on {other}, which the map does not say" for other in missing]
        faults += [f"{name}: does not stand on {other}" for other in surplus]
        faults += [f"{name}: comes before {other} in the map" for other in later]
    return faults


def alone_faults(items, crates):
    """Crates of which the map says that none stands on them, with those that do."""
    alone = [head for head, text in items if ALONE in text]
    return [f"{head}: {name} stands on it" for head in alone for name in crates if head in crates[name]]


def path_of(name, top):
    """The file or folder of a name in the map, or none. A module of definitions is named without its ending."""
    for path in (top / name, top / "crates" / name, top / "crates" / f"{name}.antt"):
        if path.exists():
            return path
    return None


def defines(text, name):
    """A line of the file begins with the name, behind words such as `abbrev pub`, `pub record` or `pub fn`."""
    return re.search(rf"^(?:[a-z]+ )*{re.escape(name)}(?![\w-])", text, re.MULTILINE) is not None


def source_faults(text, items, top):
    """Files that are not there, and definitions that don't stand in their file."""
    names = dict.fromkeys(name for name in NAMED.findall(FENCED.sub("", text)) if "/" in name)
    faults = [f"{name}: is not there" for name in names if path_of(name, top) is None]
    for head, rest in items:
        found = HOLDS.search(rest)
        path = path_of(head, top) if found else None
        if path and path.is_file():
            source = path.read_text(encoding="utf-8")
            missing = [name for name in NAMED.findall(found[1]) if not defines(source, name)]
            faults += [f"{head}: does not define {name}" for name in missing]
        elif found and path:
            faults.append(f"{head}: is no file")
    return faults


def form_faults(items):
    """Items that list something, but not in the form that is read: at the end, with a full stop."""
    return [
        f"{head}: its list does not end with a full stop at the end of the item"
        for head, text in items
        if MARKS.search(text) and not STANDS_ON.search(text) and not HOLDS.search(text)
    ]


def faults_of(text, crates_text, top):
    """All differences, a line each."""
    items, crates = items_of(text), crates_of(crates_text)
    faults = form_faults(items) + crate_faults(told_crates(items), crates) + alone_faults(items, crates)
    return faults + source_faults(text, items, top)


def main():
    parser = argparse.ArgumentParser(description=__doc__, formatter_class=argparse.RawDescriptionHelpFormatter)
    parser.add_argument("--top", type=Path, default=TOP, help="the folder of the repository (default: this one)")
    top = parser.parse_args().top
    text = (top / "docs/MAP.md").read_text(encoding="utf-8")
    faults = faults_of(text, (top / "crates.txt").read_text(encoding="utf-8"), top)
    for fault in faults:
        print(fault)
    sys.exit(1 if faults else 0)


if __name__ == "__main__":
    main()

#!/usr/bin/env python3
"""Compares why objects are loaded with the rules, and with what lld says of the same links (`--why-extract`).

    python3 examples/real/extracted.py [PROGRAM]

Links what `check.py` links; PROGRAM is as there, and `why 2` comes behind it. For each link it is compared that

- the objects with a line are those that are loaded by the rules, as `levels.py` has them;
- an object that a reference loads is one step further than the object of the reference, counted from what is loaded
  without any, and is one that this reference asks for;
- each archive member of which lld says that it extracts it is loaded.

lld tells the reference that came first to it, so that it may be another one, of an object that is further away. How many
reasons are the same is told. Where no compiler is there, or no lld of version 14 or later, one line says so.
What differs ends with status 1.
"""
import collections
import json
import os
import pathlib
import shlex
import shutil
import subprocess
import sys
import tempfile

# `check` makes the tools' modules known, so it comes first.
import check
import levels
from explained.faults import Fault as Unreadable
from explained.lines import Reference, Root, read_reasons
from explained.names import Names
from linker_inputs.faults import Warnings
from linker_inputs.main import manifest_of, words_of_compiler
from linker_inputs.response_files import joined

LLD = "ld.lld"


def has_lld():
    """Whether there is an lld that says why it extracts members."""
    return shutil.which(LLD) is not None and "--why-extract" in subprocess.run([LLD, "--help"], capture_output=True, text=True).stdout


def extracted(words):
    """What lld says of the members that it extracts: the file of the reference, the member, and the reference's name."""
    with tempfile.TemporaryDirectory() as folder:
        told, word_file, output = (os.path.join(folder, name) for name in ("told", "words", "output"))
        pathlib.Path(word_file).write_bytes(os.fsencode(joined(words)))
        more = ["-o", output, f"--why-extract={told}", "--no-demangle", "--noinhibit-exec", "--unresolved-symbols=ignore-all"]
        done = subprocess.run([LLD, f"@{word_file}", *more], capture_output=True, text=True, errors="backslashreplace")
        if done.returncode != 0:
            raise SystemExit(f"{LLD} ends with {done.returncode}: {done.stderr[-2000:]}")
        head, *lines = pathlib.Path(told).read_text().splitlines()
    if head != "reference\textracted\tsymbol":
        raise SystemExit(f"{LLD} heads its lines by {head}")
    return [tuple(line.split("\t")) for line in lines]


def faults_of_levels(manifest, reasons, names):
    """Lines that tell where the reasons are not those of the rules."""
    rules, due = levels.Rules(manifest), levels.levels(manifest)
    found = [f"object {number} is loaded here, not by the rules" for number in reasons if number not in due]
    found += [f"object {number} is loaded by the rules, not here" for number in due if number not in reasons]
    for number, reason in reasons.items():
        level = due.get(number)
        if not isinstance(reason, Reference):
            if level != 0:
                found.append(f"object {number} is loaded without a reference, and its level is {level}")
            continue
        owner, entry = names.entry(reason.symbol)
        target = rules.target(entry) if owner == reason.by and entry["place"] == "undefined" and entry.get("bind") != "weak" else None
        if target is None or target.owner != number:
            found.append(f"object {number} isn't what symbol {reason.symbol} of object {reason.by} asks for")
        if level != due.get(reason.by, -1) + 1:
            found.append(f"object {number} of level {level} is loaded by object {reason.by} of level {due.get(reason.by)}")
    return found


def told_as_lld_does(number, reason, names):
    """A reason with the names that lld has for it: a root name is asked for by no file."""
    if isinstance(reason, Reference):
        return names.of_object(reason.by), names.of_object(number), names.of_symbol(reason.symbol, reason.by)
    return None, names.of_object(number), reason.name if isinstance(reason, Root) else None


def faults_of_members(lines, reasons, names):
    """Lines that tell which members lld extracts that are not loaded, and how many are loaded for the same reference or root name."""
    loaded = collections.Counter(names.of_object(number) for number in reasons)
    members = collections.Counter(member for _, member, _ in lines)
    ours = {told_as_lld_does(number, reason, names) for number, reason in reasons.items()}
    # Where no file asks, lld tells an option, or `<internal>`.
    same = sum((None if file.startswith(("--", "<")) else file, member, symbol) in ours for file, member, symbol in lines)
    return [f"extracted by lld, not loaded here: {member}" for member in members if loaded[member] < members[member]], same


def check_link(program, name, words, lld):
    """Compares one link, and tells what differs; answers whether nothing does."""
    words = words_of_compiler(shlex.split(words.format(c=check.HERE / "c")))
    written = manifest_of(words, Warnings())
    done = subprocess.run([*program, "why", "2"], input=written, capture_output=True)
    if done.returncode != 0:
        print(f"{name}: the program ends with {done.returncode}: {done.stdout.decode(errors='replace').strip()[:2000]}", file=sys.stderr)
        return False
    manifest = json.loads(written)
    try:
        reasons, names = read_reasons(done.stdout.decode()), Names(manifest)
    except Unreadable as fault:
        print(f"{name}: {fault}", file=sys.stderr)
        return False
    found = faults_of_levels(manifest, reasons, names)
    summary = f"{name}: {len(reasons)} objects loaded, {sum(isinstance(reason, Reference) for reason in reasons.values())} by references"
    if lld:
        lines = extracted(words)
        more, same = faults_of_members(lines, reasons, names)
        found += more
        summary += f"; lld extracts {len(lines)}, {same} for the same reason"
    print(summary, flush=True)
    for line in found:
        print(f"{name}: {line}", file=sys.stderr)
    return not found


def main():
    if sys.argv[1:] in (["-h"], ["--help"]):
        print(__doc__.strip())
        return 0
    program = check.program_of(sys.argv[1:])
    missing = [tool for tool in ("cc", "c++", "ar") if shutil.which(tool) is None]
    if missing:
        print(f"examples/real: not run, since there is no {' and no '.join(missing)}")
        return 0
    lld = has_lld()
    if not lld:
        print("examples/real: there is no lld that says why it extracts members, so the rules alone are compared")
    results = check.where_built(lambda: [check_link(program, name, words, lld) for name, words, _, _ in check.links_at_hand()])
    print(f"examples/real: {len(results)} links explained, {results.count(False)} differ")
    return 1 if False in results else 0


if __name__ == "__main__":
    sys.exit(main())

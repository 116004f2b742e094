#!/usr/bin/env python3
"""tools/further_edits.py [--jobs N] [CRATE..]

Tries the edits of crates/CRATE/further-edits, of all crates without a CRATE: the check has to refuse each. The gate
tries those of must-fail alone. It works on N crates at a time (as many as processors), each in a copy of all crates:
what changes in one must not be seen by those above it.

An edit is tried by a check of the function in which it stands: what refuses it is then a clause of that function's own
contract, or of what the function calls, and its name is told. One that this check lets pass, or that stands in no
function, is tried on the whole crate by `rt must-fail`. How many were refused is told at the end, with the name of each
that was not, and of each that couldn't be tried; the status is then 1.

It begins with the libraries that `rt lib` or `rt check` left in crates/*/out of a checkout on this machine; those that
are missing or old are proved first. Behind that an edit takes ten seconds to a minute.
"""
import concurrent.futures
import os
import pathlib
import re
import shutil
import subprocess
import sys
import tempfile

TOP = pathlib.Path(__file__).resolve().parents[1]
FUNCTION = re.compile(r"^(\s*)(?:pub(?:\([a-z ]+\))? )?(?:const |unsafe )*fn (\w+)", re.M)
INHERENT = re.compile(r"^impl\b(?:<(?:[^<>]|<[^<>]*>)*>)?\s+(\w+)(?![^{]*\bfor\b)", re.M)
OF_TRAIT = re.compile(r"^impl\b(?:<(?:[^<>]|<[^<>]*>)*>)?\s+(?:\w+::)*(\w+)(?:<(?:[^<>]|<[^<>]*>)*>)?\s+for\s+(\w+)", re.M)
CHECKED = re.compile(r"^only=(\d+) proved=(\d+)$", re.M)
OPEN = re.compile(r"\(`([\w-]+)`\)")
LISTED = re.compile(r"`search` did not prove (`[\w-]+`(?:,? (?:and )?`[\w-]+`)*)")
GONE = re.compile(r"^(note: )?(\./)?proofs/.*(has no field|is not in scope|has no `|was not admitted)")
TOLD = re.compile(r"^(note: )?\S+:\d+:\d+:")
WHOLE = re.compile(r"rt: must-fail (\S+)/(\S+): (refused|NOT REFUSED|BAD EDIT|NOT TRIED)(.*)")


class BadEdit(Exception):
    """Why an edit can't be applied."""


def changes_of(edit):
    """The changes of an edit, each as a file, the text that stands there and the one that takes its place."""
    found, parts = [], {}
    for line in edit.read_text(encoding="utf-8").split("\n"):
        key, colon, text = line.partition(":")
        if colon and key in ("file", "old", "new"):
            parts[key] = text.removeprefix(" ")
            if key == "new":
                found.append((parts["file"].strip(), parts["old"], parts["new"]))
    return found


def function_at(text, at):
    """The function in which this place of a source file stands, as `rt check --only` takes it: with its type, if it is a method of one."""
    before = [found for found in FUNCTION.finditer(text) if found.start() <= at]
    if not before:
        return None
    indent, name = before[-1].groups()
    impls = [found for found in re.finditer(r"^impl\b.*", text, re.M) if found.start() < before[-1].start()] if indent.strip("\n") else []
    if not impls:
        return name
    if found := INHERENT.match(text, impls[-1].start()):
        return f"{found[1]}::{name}"
    found = OF_TRAIT.match(text, impls[-1].start())
    return f"{found[2][0].upper()}{found[2][1:]}{found[1]}::{name}" if found else name


def applied(folder, edit):
    """The files that an edit changes, with their new texts, and the function in which its first change stands."""
    texts, function = {}, None
    for file, old, new in changes_of(edit):
        text = texts.get(file) or (folder / file).read_text(encoding="utf-8")
        if text.count(old) != 1:
            raise BadEdit(f"its text stands {text.count(old)} times in {file}")
        if function is None and file.startswith("src/"):
            function = function_at(text, text.index(old))
        texts[file] = text.replace(old, new)
    if not texts:
        raise BadEdit("it changes nothing")
    return texts, function


def open_goals(output):
    """The goals that a check left open, as it names them."""
    listed = " ".join(LISTED.findall(output))
    return {*OPEN.findall(output), *re.findall(r"`([\w-]+)`", listed)}


def verdict_of(status, output):
    """What a check of one function came to, and what was said: None if the function is still proved."""
    counts = CHECKED.search(output)
    if status == 0 or counts and counts[1] == counts[2]:
        return None
    if not counts:
        first = next((line for line in output.split("\n") if "error:" in line), output[-200:])
        return "BAD EDIT", first[:200]
    lines = [line for line in output.split("\n") if TOLD.match(line)]
    if lines and all(GONE.match(line) for line in lines):
        return "refused", "only because a proof file names what the edit took away"
    clauses = sorted({goal.split("-clause-")[-1] for goal in open_goals(output)})
    return "refused", ", ".join(clauses) or (lines[0][:160] if lines else "")


def checked(folder, function):
    """The status and the output of a check of this function alone."""
    run = subprocess.run(["rt", "check", "--jobs", "1", "--only", function], cwd=folder, stdout=subprocess.PIPE, stderr=subprocess.STDOUT, text=True, errors="replace")
    return run.returncode, run.stdout


def name_with_module(crate, file, function):
    """A function's name with its crate and the module of this source file, by which `rt check --only` tells it from others of its name."""
    parts = pathlib.PurePosixPath(file).with_suffix("").parts[1:]
    return "::".join((crate, *(part for part in parts if part not in ("lib", "main", "mod")), function))


def checked_by_name(folder, file, function):
    """The function's name as the check takes it, with the status and the output of a check of it alone."""
    status, output = checked(folder, function)
    if "has no function" in output and "::" in function:
        # The type of an impl has parameters, which stand in the name that a check gives it.
        function = function.split("::")[-1]
        status, output = checked(folder, function)
    if "several functions are named" in output:
        function = name_with_module(folder.name, file, function)
        status, output = checked(folder, function)
    return function, status, output


def tried_alone(folder, edit):
    """What the check of an edit's function came to; None where it refuses nothing, or the edit stands in no function."""
    try:
        texts, function = applied(folder, edit)
    except BadEdit as why:
        return "BAD EDIT", str(why)
    if function is None:
        return None
    file = next(file for file in texts if file.startswith("src/"))
    originals = {file: (folder / file).read_text(encoding="utf-8") for file in texts}
    try:
        for file, text in texts.items():
            (folder / file).write_text(text, encoding="utf-8")
        function, status, output = checked_by_name(folder, file, function)
    finally:
        for file, text in originals.items():
            (folder / file).write_text(text, encoding="utf-8")
    found = verdict_of(status, output)
    return found and (found[0], f"{function}: {found[1]}")


def tried_wholly(room, left):
    """What a check of the whole crate came to for each of these edits."""
    for crate, edit in left:
        folder = room / "crates" / crate / "must-fail"
        folder.mkdir(exist_ok=True)
        shutil.copy(edit, folder)
    outcomes = []
    if left:
        crates = sorted({crate for crate, _ in left})
        run = subprocess.run(["rt", "must-fail", *crates], cwd=room, stdout=subprocess.PIPE, stderr=subprocess.STDOUT, text=True, errors="replace")
        outcomes = [(f"{crate}/{name}", kind, f"by the whole crate{said}") for crate, name, kind, said in WHOLE.findall(run.stdout)]
    told = {name for name, _, _ in outcomes}
    return outcomes + [(f"{crate}/{edit.name}", "NOT TRIED", "") for crate, edit in left if f"{crate}/{edit.name}" not in told]


def linked_or_copied(one, other):
    """Gives a file of a library a second name: `rt` never writes into one."""
    try:
        os.link(one, other)
    except OSError:
        shutil.copy2(one, other)


def copied(room):
    """Puts a copy of the crates without the gate's edits into the folder."""
    for crate in (TOP / "crates").iterdir():
        to = room / "crates" / crate.name
        shutil.copytree(crate, to, ignore=shutil.ignore_patterns("must-fail", "out"))
        if (crate / "out" / "rlib").is_dir():
            shutil.copytree(crate / "out" / "rlib", to / "out" / "rlib", copy_function=linked_or_copied)
    for name in ("crates.txt", "HANDLES"):
        shutil.copy(TOP / name, room)
    # It is the top of a repository, as `rt` looks for it.
    (room / ".git").mkdir()


def edits_of_crates():
    """The further edits of each crate that has some."""
    return {folder.parent.name: sorted(folder.glob("*.edit")) for folder in sorted((TOP / "crates").glob("*/further-edits"))}


def show(name, kind, said):
    print(f"{name}: {kind}{f' ({said})' if said else ''}", flush=True)


def tried_of_crate(crate, edits):
    """What came of each of these edits of a crate: its name, the kind of outcome, and what was said."""
    outcomes, left = [], []
    with tempfile.TemporaryDirectory(prefix="further-edits-") as name:
        room = pathlib.Path(name)
        copied(room)
        for edit in edits:
            outcome = tried_alone(room / "crates" / crate, edit)
            if outcome:
                outcomes.append((f"{crate}/{edit.name}", *outcome))
                show(*outcomes[-1])
            else:
                left.append((crate, edit))
        for outcome in tried_wholly(room, left):
            outcomes.append(outcome)
            show(*outcome)
    return outcomes


def tried(edits, crates, jobs):
    """What came of each edit of these crates: its name, the kind of outcome, and what was said."""
    with concurrent.futures.ThreadPoolExecutor(jobs) as pool:
        return [outcome for found in pool.map(lambda crate: tried_of_crate(crate, edits[crate]), crates) for outcome in found]


def words_of(words):
    """How many crates at a time, and the crates that the words name."""
    jobs = len(os.sched_getaffinity(0))
    if words[:1] == ["--jobs"] and len(words) > 1 and words[1].isdigit():
        return max(1, int(words[1])), words[2:]
    return jobs, words


def main():
    jobs, words = words_of(sys.argv[1:])
    if words[:1] in (["--help"], ["-h"]):
        print(__doc__)
        return 0
    edits = edits_of_crates()
    unknown = [word for word in words if word not in edits]
    if unknown:
        print(f"{unknown[0]} has no further edits: these have some: {' '.join(edits)}", file=sys.stderr)
        return 2
    outcomes = tried(edits, words or list(edits), jobs)
    others = [(name, kind, said) for name, kind, said in outcomes if kind != "refused"]
    print(f"{len(outcomes)} further edits: {len(outcomes) - len(others)} refused")
    for outcome in others:
        show(*outcome)
    return 1 if others or not outcomes else 0


if __name__ == "__main__":
    sys.exit(main())

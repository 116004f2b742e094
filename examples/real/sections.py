#!/usr/bin/env python3
"""Compares which sections of real links are live with what lld and GNU ld remove (`--gc-sections`, `--print-gc-sections`).

    python3 examples/real/sections.py [PROGRAM]

Compiles the sources of `gc/`, `c/` and `cxx/` with a section for each function and each variable, and links them in several
ways. PROGRAM is as for `check.py`, and `gc 2` comes behind it. Of each link the dead sections are compared with those
that each linker names as removed: sections that come into memory, of the loaded objects that aren't shared, by the file
and the section's name. GNU ld names no empty sections, and those of discarded groups too.

Where an answer is another one, the manifest is changed by what the linker is known to do otherwise (`collected.py`). Then
all has to be the same. What differs ends with status 1. Where no compiler or no linker is there, one line says so, and the
status is 0.
"""
import collections
import copy
import json
import shlex
import shutil
import subprocess
import sys

# `check` makes the tools' modules known, so it comes first.
import check
from collected import COMMANDS, Answer, KeptInputs, as_answered
from linker_inputs.faults import Warnings
from linker_inputs.main import words_of_compiler
from linker_inputs.manifest import manifest_pieces
from linker_inputs.references import ALLOCATED
from linker_inputs.words import read_words

BUILD = """
cc {split} -c {gc}/main.c {gc}/more.c {gc}/limit.c {gc}/plugins.c {gc}/host.c {gc}/alone.c
cc {split} -fPIC -c {gc}/callback.c {gc}/library.c
cc -c {gc}/order.s
c++ {split} -c {gc}/throws.cc
c++ {split} -fPIC -c {gc}/throws.cc -o throws.pic.o
c++ {split} -fPIC -fvisibility=hidden -fvisibility-inlines-hidden -c {gc}/throws.cc -o throws.hidden.o
c++ {split} -c {cxx}/main.cc -o main.cxx.o
c++ {split} -c {cxx}/fill.cc
cc {split} -fcommon -c {c}/main.c -o shapes.o
cc {split} -fcommon -c {c}/area.c {c}/scale.c {c}/volume.c
ar rcs libmore.a more.o plugins.o
ar rcsT libthin.a more.o plugins.o
ar rcs libshapes.a area.o scale.o volume.o
ar rcs libfill.a fill.o
cc -shared callback.o -o libcallback.so
"""
CLANG_BUILD = """
clang {split} {more} -c {gc}/main.c -o main.clang.o
clang {split} {more} -c {gc}/limit.c -o limit.clang.o
clang {split} {more} -c {gc}/more.c -o more.clang.o
clang {split} {more} -c {gc}/plugins.c -o plugins.clang.o
clang++ {split} {more} -c {gc}/throws.cc -o throws.clang.o
"""
LINKS = [
    ("objects", "cc main.o limit.o more.o plugins.o"),
    ("archive", "cc main.o limit.o -L. -lmore"),
    ("thin archive", "cc main.o -L. -lthin"),
    ("shapes", "cc shapes.o -L. -lshapes"),
    ("forced", "cc main.o limit.o -Wl,-u,thrice -Wl,--defsym=alias=no_limit -L. -lmore"),
    ("shared library that asks back", "cc host.o -L. -lcallback"),
    ("shared library that isn't needed", "cc alone.o -Wl,--as-needed -L. -lcallback"),
    ("dynamic list", "cc main.o limit.o -Wl,--dynamic-list={gc}/list.txt -Wl,--export-dynamic-symbol=thr* -L. -lmore"),
    ("all exported", "cc -rdynamic main.o limit.o -L. -lmore"),
    ("shared output", "cc -shared library.o"),
    ("shared output with versions", "cc -shared library.o -Wl,--version-script={gc}/library.map"),
    ("partial output", "cc -r main.o limit.o more.o plugins.o -Wl,-e,main"),
    ("linked sections", "cc -nostdlib -Wl,-e,start order.o"),
    ("script", "cc -nostdlib -Wl,-e,main main.o limit.o more.o plugins.o -Wl,-T,{gc}/keep.ld"),
    ("C++", "c++ throws.o"),
    ("C++ shared output", "c++ -shared throws.pic.o"),
    ("C++ shared output, hidden", "c++ -shared throws.hidden.o"),
    ("C++ archive", "c++ main.cxx.o -L. -lfill"),
]
# Those that want clang.
CLANG_LINKS = [
    ("clang", "clang main.clang.o limit.clang.o more.clang.o plugins.clang.o"),
    ("clang, C++", "clang++ throws.clang.o"),
]
# Those that GNU ld 2.40 can't do: it ends by a signal.
LLD_LINKS = [("named sections are collected", "cc main.o limit.o -Wl,-z,start-stop-gc -L. -lmore")]
# Those that want static libraries of the system.
STATIC_LINKS = [
    ("static", "cc -static main.o limit.o -L. -lmore"),
    ("static PIE", "cc -static-pie main.o limit.o -L. -lmore"),
    ("C++, static", "c++ -static main.cxx.o -L. -lfill"),
    ("C++, static, with exceptions", "c++ -static throws.o"),
]


def folders():
    """Where the sources stand, by the names that words have for it."""
    return {name: check.HERE / name for name in ("gc", "c", "cxx")}


def build():
    """Compiles the sources in the folder at hand."""
    text = BUILD + (CLANG_BUILD if shutil.which("clang") else "")
    options = {"split": "-ffunction-sections -fdata-sections", "more": "-fstack-size-section -fpatchable-function-entry=2 -g"}
    for line in text.format(**options, **folders()).splitlines():
        if line:
            subprocess.run(shlex.split(line), check=True)


class Sections:
    """How often a section of a name in a file is live, dead or gone, and how often it is dead and empty."""

    def __init__(self, lines, entries):
        self.live, self.dead, self.gone, self.empty = (collections.Counter() for _ in range(4))
        for line in lines.splitlines():
            word, number, place = line.split(" ")
            # An object that a known difference adds has no sections.
            table = entries[int(number)].table
            _, _, flags, _, _, size, *_ = table.referring.file.sections[int(place)]
            if flags & ALLOCATED and table.referring.with_output[int(place)]:
                key = table.name, table.referring.names[int(place)].decode()
                getattr(self, word)[key] += 1
                self.empty[key] += word == "dead" and size == 0

    def differences(self, answer):
        """Lines that tell where a linker removes other sections."""
        here, gone, empty, every = (answer.named(found) for found in (self.dead, self.gone, self.empty, self.live + self.dead + self.gone))
        there = answer.removed
        more = there - here
        if answer.linker == "GNU ld":
            here, more = here - empty, more - gone
        found = [f"dead here, kept by {answer.linker}: {section} of {file}" for file, section in (here - there).elements()]
        more = [(file, section) for file, section in more.elements() if every[file, section]]
        return found + [f"removed by {answer.linker}, live here: {section} of {file}" for file, section in more]


def run(program, manifest, entries):
    """What the program says of a manifest."""
    done = subprocess.run([*program, "gc", "2"], input=json.dumps(manifest).encode(), capture_output=True)
    if done.returncode != 0:
        raise SystemExit(f"the program ends with {done.returncode}: {done.stdout.decode(errors='replace').strip()[:2000]}")
    return Sections(done.stdout.decode(), entries)


def in_order(manifest, entries, answer):
    """The manifest with its objects in the order in which a linker loads them, and the entries of these."""
    numbers = sorted(range(len(entries)), key=lambda number: answer.order.get(answer.name_of(entries[number].table.name), len(answer.order)))
    manifest["objects"] = [manifest["objects"][number] for number in numbers] + manifest["objects"][len(entries) :]
    return [entries[number] for number in numbers]


def compare_answer(program, name, manifest, inputs, first, answer):
    """Compares with one linker, and tells what differs beside what is known; answers how many sections do, and whether all is known."""
    differing = first.differences(answer)
    if not differing:
        return f"the same for {answer.linker}", True
    changed = copy.deepcopy(manifest)
    as_answered(changed, inputs, answer)
    entries = in_order(changed, inputs.entries, answer)
    others = run(program, changed, entries).differences(answer)
    for line in others:
        print(f"{name}: {line}", file=sys.stderr)
    return f"{len(differing)} known to differ for {answer.linker}" if not others else f"{len(others)} differ for {answer.linker}", not others


def check_link(program, linkers, name, words):
    """Compares one link, and tells what came of it; answers whether nothing differs beside what is known."""
    words = [*words_of_compiler(shlex.split(words.format(**folders()))), "--gc-sections"]
    command = read_words(words, Warnings())
    inputs = KeptInputs(command, Warnings())
    manifest = json.loads("".join(manifest_pieces(command, inputs)))
    first = run(program, manifest, inputs.entries)
    results = [compare_answer(program, name, manifest, inputs, first, Answer(linker, words)) for linker in linkers]
    counts = {word: sum(getattr(first, word).values()) for word in ("live", "dead", "gone")}
    told = ", ".join(f"{count} {word}" for word, count in counts.items())
    print(f"{name}: {sum(counts.values())} sections, {told}; " + ", ".join(text for text, _ in results), flush=True)
    return all(right for _, right in results)


def linkers_at_hand():
    """The linkers that are there, and say what they remove."""
    found = []
    for linker, command in COMMANDS.items():
        if shutil.which(command) is None:
            continue
        version = subprocess.run([command, "--version"], capture_output=True, text=True).stdout
        found += [linker] if linker.removeprefix("GNU ").lower() in version.lower() else []
    return found


def main():
    if sys.argv[1:] in (["-h"], ["--help"]):
        print(__doc__.strip())
        return 0
    program = check.program_of(sys.argv[1:])
    missing = [tool for tool in ("cc", "c++", "ar") if shutil.which(tool) is None]
    linkers = linkers_at_hand()
    if missing or not linkers:
        print(f"examples/real: not run, since there is no {' and no '.join(missing or ['linker'])}")
        return 0
    links = LINKS + (CLANG_LINKS if shutil.which("clang") else []) + (STATIC_LINKS if check.has_static_libraries() else [])
    links = [(linkers, *link) for link in links]
    links += [(["lld"], *link) for link in LLD_LINKS if "lld" in linkers]
    results = check.where_built(lambda: [check_link(program, *link) for link in links], build)
    print(f"examples/real: the sections of {len(results)} links, {results.count(False)} differ")
    return 1 if False in results else 0


if __name__ == "__main__":
    sys.exit(main())

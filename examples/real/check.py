#!/usr/bin/env python3
"""Links real files, and compares each report with what GNU ld says of the same link.

    python3 examples/real/check.py [PROGRAM]

Compiles the sources of `c/` and `cxx/` with the system's compilers (`cc` and `c++`), makes archives and a shared library of
them, and links them in several ways, once by clang where it is there. PROGRAM is one or more words,
crates/link_program/out/link_program by default. What is compared, `compare.py` says; here it is also said what has to be
loaded, and what not. Then the small inputs of `linkers.py` are linked, of which docs/LINKERS.md says that linkers answer
them otherwise, and the version definitions of `verdef.py` are written beside those of the linkers that are there.
Where no compiler or no GNU ld is there, one line says so, and the status is 0. What differs ends with status 1.
"""
import os
import pathlib
import shlex
import shutil
import subprocess
import sys
import tempfile

# `compare` makes the tool's modules known, so it comes first.
import compare
import linkers
import verdef
from linker_inputs.faults import Fault, Warnings
from linker_inputs.main import words_of_compiler

HERE = pathlib.Path(__file__).resolve().parent
PROGRAM = HERE.parents[1] / "crates" / "link_program" / "out" / "link_program"
TOOLS = ("cc", "c++", "ar", "ld")

BUILD = """
cc -fcommon -c {c}/main.c {c}/area.c {c}/scale.c {c}/volume.c {c}/log.c {c}/wrap.c {c}/sections.c
ar rcs libshapes.a area.o scale.o volume.o
ar rcsT libthin.a area.o scale.o volume.o
ar rcs libsteps.a sections.o
cc -fcommon -fPIC -c {c}/area.c -o area.pic.o
cc -fPIC -c {c}/scale.c -o scale.pic.o
cc -fPIC -c {c}/versions.c -o versions.pic.o
cc -shared -o libpicture.so area.pic.o scale.pic.o versions.pic.o -Wl,--version-script={c}/shapes.map
c++ -c {cxx}/main.cc -o main.cxx.o
c++ -c {cxx}/fill.cc
ar rcs libfill.a fill.o
cc -c {c}/log.c -o "odd name's.o"
"""

# A name, the compiler's words, objects that have to be loaded, and objects that have to stay outside.
LINKS = [
    ("archive", "cc main.o -L. -lshapes", ["./libshapes.a(area.o)", "./libshapes.a(scale.o)"], ["./libshapes.a(volume.o)"]),
    ("strong over weak", "cc main.o log.o -L. -lshapes", ["log.o"], []),
    ("thin archive", "cc main.o -L. -lthin", ["./area.o"], ["./volume.o"]),
    ("forced", "cc main.o -Wl,-u,count_steps -L. -lshapes -lsteps", ["./libsteps.a(sections.o)"], []),
    ("entry", "cc -nostartfiles -Wl,-e,count_steps main.o -L. -lshapes -lsteps", ["./libsteps.a(sections.o)"], []),
    ("redirect", "cc main.o -Wl,--defsym=trace=count_steps -L. -lshapes -lsteps", ["./libsteps.a(sections.o)"], []),
    ("the same object twice", "cc main.o area.o area.o scale.o -Wl,-z,muldefs", ["area.o", "scale.o"], []),
    ("several definitions", "cc main.o area.o scale.o volume.o -Wl,-z,muldefs", ["scale.o", "volume.o"], []),
    ("wrapped", "cc main.o wrap.o -Wl,--wrap=scale -L. -lshapes", ["wrap.o", "./libshapes.a(scale.o)"], []),
    ("whole archive", "cc main.o area.o scale.o -Wl,--whole-archive -L. -l:libfill.a -Wl,--no-whole-archive -lstdc++", ["./libfill.a(fill.o)"], []),
    ("shared library", "cc main.o -L. -lpicture", ["main.o"], []),
    ("as needed", "cc main.o area.o scale.o -Wl,--as-needed -L. -lpicture", ["area.o"], []),
    ("shared output", "cc -shared area.pic.o scale.pic.o versions.pic.o -Wl,--version-script={c}/shapes.map", ["versions.pic.o"], []),
    ("dynamic list", "cc main.o area.o scale.o -Wl,--dynamic-list={c}/../list.txt", ["area.o"], []),
    ("partial output", "cc -r main.o log.o -L. -lshapes", ["./libshapes.a(area.o)"], ["./libshapes.a(volume.o)"]),
    ("C++, shared", "c++ main.cxx.o fill.o", ["fill.o"], []),
    ("C++ archive", "c++ main.cxx.o -L. -lfill", ["./libfill.a(fill.o)"], []),
    ("C++, partial", "c++ -r main.cxx.o fill.o", ["fill.o"], []),
    ("response file", "cc main.o @libs.rsp", ["./libshapes.a(area.o)", "odd name's.o"], ["./libshapes.a(volume.o)"]),
    ("C++, response file", "c++ main.cxx.o @libs.rsp", ["./libfill.a(fill.o)", "odd name's.o"], []),
    ("response file, long", "cc main.o @long.rsp", ["./libshapes.a(area.o)"], ["./libshapes.a(volume.o)"]),
]
# Those that want clang.
CLANG_LINKS = [("clang, response file", "clang main.o @libs.rsp", ["./libshapes.a(area.o)", "odd name's.o"], ["./libshapes.a(volume.o)"])]
# Those that want static libraries of the system.
STATIC_LINKS = [
    ("static", "cc -static main.o -L. -lshapes", ["./libshapes.a(area.o)"], ["./libshapes.a(volume.o)"]),
    ("static PIE", "cc -static-pie main.o -L. -lshapes", ["./libshapes.a(area.o)"], ["./libshapes.a(volume.o)"]),
    ("C++, static", "c++ -static main.cxx.o -L. -lfill", ["./libfill.a(fill.o)"], []),
]


# Response files: one in another one, with blanks and quotes, and one of more words than a command may have.
TEXTS = {
    "libs.rsp": "-L. -lshapes '-lfill'\n@odd.rsp",
    "odd.rsp": "\"odd name's.o\" -Wl,-rpath-link,'a b' -Wl,--as-needed -lpicture",
    "long.rsp": "-L. -lshapes" + "".join(f"\n-Wl,-rpath-link,/no/such/folder/with/a/rather/long/name/{number}" for number in range(40000)),
}


def build():
    """Compiles the sources in the folder at hand, and writes the response files."""
    for line in BUILD.format(c=HERE / "c", cxx=HERE / "cxx").strip().splitlines():
        subprocess.run(shlex.split(line), check=True)
    for name, text in TEXTS.items():
        pathlib.Path(name).write_text(text, encoding="utf-8")


def has_static_libraries():
    """Whether the system has its libraries as archives."""
    found = (subprocess.run(["cc", f"-print-file-name={name}"], capture_output=True, text=True).stdout.strip() for name in ("libc.a", "libstdc++.a"))
    return all(os.path.isabs(path) for path in found)


def links_at_hand():
    """The links whose tools and libraries are there."""
    return LINKS + (CLANG_LINKS if shutil.which("clang") else []) + (STATIC_LINKS if has_static_libraries() else [])


def program_of(words):
    """The program that words name, with its path, or the usual one."""
    program = [os.path.abspath(word) if os.path.exists(word) else word for word in words] or [str(PROGRAM)]
    if shutil.which(program[0]) is None:
        sys.exit(f"{program[0]} is no program: `rt run` in crates/link_program builds one")
    return program


def where_built(check_links, build=build):
    """What `check_links` answers in a folder of its own, where the files of the links are built."""
    with tempfile.TemporaryDirectory() as folder:
        os.chdir(folder)
        try:
            build()
            return check_links()
        except Fault as fault:
            sys.exit(f"error: {fault}")
        finally:
            os.chdir("/")


def check_link(program, name, words, inside, outside):
    """Compares one link, and tells what differs; answers whether nothing does."""
    words = words_of_compiler(shlex.split(words.format(c=HERE / "c")))
    found, ours = compare.compare(program, words, Warnings())
    if ours:
        found += [f"{file} isn't loaded" for file in inside if file not in ours.loaded]
        found += [f"{file} is loaded" for file in outside if file in ours.loaded]
        print(f"{name}: {compare.summary(found, ours)}", flush=True)
    others = [line for line in found if not line.startswith("known: ")]
    for line in others:
        print(f"{name}: {line}", file=sys.stderr)
    return not others


def main():
    if sys.argv[1:] in (["-h"], ["--help"]):
        print(__doc__.strip())
        return 0
    program = program_of(sys.argv[1:])
    missing = [tool for tool in TOOLS if shutil.which(tool) is None]
    if not missing and "GNU ld" not in subprocess.run(["ld", "--version"], capture_output=True, text=True).stdout:
        missing = ["GNU ld"]
    if missing:
        print(f"examples/real: not run, since there is no {' and no '.join(missing)}")
        return 0
    results = where_built(
        lambda: [check_link(program, *link) for link in links_at_hand()] + linkers.check(program) + verdef.check(program)
    )
    print(f"examples/real: {len(results)} links, {results.count(False)} differ")
    return 1 if False in results else 0


if __name__ == "__main__":
    sys.exit(main())

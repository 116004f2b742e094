#!/usr/bin/env python3
"""Runs a built program on version scripts and export lists that are long in each of their parts, whole and not closed.

    tools/hostile_scripts.py PROGRAM [--megabytes M] [--seconds S] [PART..]

A script of M megabytes (10 if not given) repeats one part (all of them in turn, or those that are named): blanks,
comments, names, patterns, versions, blocks and so on. It stands in a manifest as version script and as export list, in
frames that close it, and that leave it open in each place, in each profile. A link of one small object reads it. Prints
a line for each part, with the slowest of its frames. A run that ends by a signal, with a status other than 0 and 1, or after more than
S processor seconds (5 if not given) for 10 megabytes, is told; then the status is 1.
"""
import argparse
import json
import os
import sys
import tempfile

from measured import Text, repeated, run

# A part of a text of names: what is repeated.
PARTS = {
    "blanks": " \t\r\n", "comments": "/**/", "comments of lines": "#\n", "open comments": "/*", "hashes": "#", "slashes": "/",
    "names": "a;", "quoted names": '"a";', "escaped names": "\\a;", "patterns of stars": "a*;", "patterns of classes": "[a]b;",
    "open classes": "[", "names without an end": "a", "names with blanks behind": "a   ;", "empty names": ";", "all": "*;",
    "global": "global:", "local": "local:", "words of both": "global:local:", "bytes of two": "\u00e9;",
    "blocks": 'extern "C" {a;};', "blocks of C++": 'extern "C++" {a*;};', "blocks in blocks": 'extern "C" {', "blocks of no language": "extern ",
    "closing braces": "}", "closings": "};", "closing braces apart": "} ;", "opening braces": "{", "names and braces": "a}",
    "comments in names": "a/*;*/", "closings in comments": "/*};*/",
}

# What stands before and behind the part: closed, and open in each place.
BODIES = {
    "{": "};", "{ ": "", "{ global: a; local:": "}", '{ extern "C" {': "};};", '{ extern "C" { ': "};", '{ extern "C++" {a;': "",
    '{ extern "C" {a;': "}", '{ extern "': '"C" {a;};};', "{ a": ";};", '{ "': '";};', "{ [": "];};", "{ /*": "*/ };",
}
NAMED = {"": "", "V": "{};", "V ": " {a;} V;", "V {": "};", "V { a; }": ";", "V {a;}; W {b;} ": "", 'V { extern "C" {': "};} ;"}
LISTS = {"{": "};", "{ ": "", '{ extern "C" {': "};};", '{ extern "C" { ': ""}
LINES = {"": "", "_a": "\n_b*", "\n": "#"}

# Each kind of text: the manifest around it, and its frames.
KINDS = {
    "script": ('{"output":"shared","version_script":"', '",', {**BODIES, **NAMED}),
    "list": ('{"output":"shared","export_list":"', '",', LISTS),
    "forced": ('{"output":"shared","force_export":["', '"],', {"": "", 'extern "C" {': "};", 'extern "C" { ': ""}),
    "linker script": ('{"output":"shared","scripts":[{"name":"s","version":"', '"}],', {"{": "};", "V {": "};"}),
    "lenient script": ('{"output":"shared","script_profile":2,"version_script":"', '",', {**BODIES, **NAMED}),
    "lenient list": ('{"output":"shared","script_profile":2,"export_list":"', '",', LISTS),
    "macho list": ('{"platform":"macho","export_list":"', '",', LINES),
}
OBJECT = '"objects":[{"name":"a.o","sections":2,"symbols":[{"name":"a","place":1},{"name":"b","place":"undefined"}]}]}'


def quoted(text):
    """The text as it stands in a text of JSON."""
    return json.dumps(text, ensure_ascii=False)[1:-1].encode()


def manifest(kind, front, part, back, size):
    """The pieces of a manifest with a script of about so many bytes."""
    before, behind, _ = KINDS[kind]
    yield before.encode() + quoted(front)
    yield from repeated(quoted(part), size)
    yield quoted(back) + (behind + OBJECT).encode()


def main():
    reader = argparse.ArgumentParser(usage=__doc__)
    reader.add_argument("program")
    reader.add_argument("--megabytes", type=float, default=10)
    reader.add_argument("--seconds", type=float, default=5)
    reader.add_argument("parts", nargs="*", default=PARTS, metavar="PART")
    given = reader.parse_intermixed_args()
    size, bound = int(given.megabytes * 1e6), given.seconds * given.megabytes / 10
    program, wrong, runs = os.path.abspath(given.program), [], 0
    print(f"{'part':>26} {'runs':>5} {'read':>5} {'s':>7} {'bytes a byte':>12}  slowest in")
    for name in given.parts:
        part = PARTS[name]
        slowest, most, read, count = (0.0, ""), 0.0, 0, 0
        for kind, (_, _, frames) in KINDS.items():
            for front, back in frames.items():
                with tempfile.TemporaryDirectory() as folder:
                    done = run(program, "link 1", Text(folder, manifest(kind, front, part, back, size)))
                where = f"{kind}: {front} .. {back}"
                slowest, most = max(slowest, (done.seconds, where)), max(most, done.held / done.size)
                read, count = read + (done.status == 0), count + 1
                if done.status not in (0, 1) or done.seconds > bound:
                    wrong.append(f"{name} in {where}: status {done.status}, {done.seconds:.1f} s: {done.text[:80]!r}")
        runs += count
        print(f"{name:>26} {count:5} {read:5} {slowest[0]:7.2f} {most:12.1f}  {slowest[1]!r}", flush=True)
    for line in wrong:
        print(line, file=sys.stderr)
    print(f"{runs} runs, {len(wrong)} wrong")
    sys.exit(1 if wrong else 0)


if __name__ == "__main__":
    main()

"""Version definitions that linkers write, beside those of the program.

Shared objects are made of version scripts by GNU ld, gold, lld and mold, where they are there. The section `.gnu.version_d`
of each has the names of its versions among others in `.dynstr`. Laid out anew, with the empty string and then each name in
the order of the records, its records and strings are to be those that `verdef` writes for the same script. lld and mold
write no parents: theirs are to be those of the script without parents.
"""
import json
import os
import re
import shutil
import struct
import subprocess
import sys
import tempfile

from linker_inputs.elf import ElfFile

LINKERS = {"GNU ld": "ld", "gold": "ld.gold", "lld": "ld.lld", "mold": "mold"}
WITHOUT_PARENTS = {"lld", "mold"}
VERSION_DEFINITIONS = 0x6FFFFFFD  # SHT_GNU_verdef
LONG = "A_VERSION_WITH_A_NAME_WHOSE_HASH_HAS_LOST_ITS_TOP_BITS"

# Some scripts: the soname, and the text.
SCRIPTS = {
    "one version": ("libone.so.1", "V1 { global: f0; local: *; };"),
    "a parent": ("libtwo.so", "V1 { global: f0; }; V2 { global: f1; } V1;"),
    "a chain of parents": ("c", "A { f0; }; B { f1; } A; C { f2; } B; D { f3; } C;"),
    "several of one parent": ("p", "A { f0; }; B { f1; } A; C { f2; } A;"),
    "some without a parent": ("s", "A { f0; }; B { f1; }; C { f2; } A; D { f3; };"),
    "long names": ("lib" + "x" * 300 + ".so.1", f"{LONG} {{ f0; }}; {LONG}_2 {{ f1; }} {LONG};"),
    "names with points": ("libm.so.6", "GLIBC_2.2.5 { f0; }; GLIBC_2.4 { f1; } GLIBC_2.2.5; GLIBC_PRIVATE { f2; } GLIBC_2.4;"),
    "names of one byte": ("l", "A { f0; }; B { f1; };"),
    "a version of the soname's name": ("V1", "V1 { f0; };"),
    "globs": ("libg.so", "V1 { global: f0*; f[12]; local: *; }; V2 { global: f3*; } V1;"),
    "an extern block": ("libe.so", 'V1 { extern "C" { f0; f1 }; }; V2 { extern "C++" { "f2" }; f2; } V1;'),
    "comments": ("libr.so", "/* first */ V1 { f0; }; # last\n V2 { f1; } V1;"),
    "a hundred versions": ("libh.so", "".join(f"V{i} {{ f{i}; }}{f' V{i - 1}' if i else ''};\n" for i in range(100))),
}


def build(count):
    """Makes an object with so many functions."""
    lines = [f".globl f{i}\n.type f{i}, %function\nf{i}: .byte 0x90" for i in range(count)] + ['.section .note.GNU-stack,"",%progbits']
    subprocess.run(["cc", "-c", "-x", "assembler", "-o", "f.o", "-"], input="\n".join([".text", *lines]) + "\n", text=True, check=True)


def names_at(file, records, place, count, strings):
    """The names of a record, the first of which has this place."""
    names = []
    for _ in range(count):
        name, step = struct.unpack_from(file.order + "II", records, place)
        names.append(strings[name : strings.index(b"\0", name)])
        place += step
    return names


def records_of(path):
    """The records of a shared object: their six numbers and their names."""
    with open(path, "rb") as opened:
        file = ElfFile(path, opened.read())
    number = file.first_of(VERSION_DEFINITIONS)
    if number is None:
        return []
    records, strings = bytes(file.bytes_of(number)), bytes(file.bytes_of(file.sections[number][6]))
    place, found = 0, []
    while True:
        version, flags, index, count, digest, names, step = struct.unpack_from(file.order + "HHHHIII", records, place)
        found.append(((version, flags, index, count, digest), names_at(file, records, place + names, count, strings)))
        if step == 0:
            return found
        place += step


def laid_out(records):
    """These records and their strings in the layout of `verdef`, as text."""
    strings, places, out = b"\0", {}, b""
    for _, names in records:
        places.setdefault(names[0], len(strings))
        strings += names[0] + b"\0"
    own = 1
    for number, (head, names) in enumerate(records):
        last = number + 1 == len(records)
        out += struct.pack("<HHHHIII", *head, 20, 0 if last else 20 + 8 * len(names))
        # The base may have the name of a version: each record's first name is its own.
        where = [own] + [later_place(records, places, name) for name in names[1:]]
        own += len(names[0]) + 1
        out += b"".join(struct.pack("<II", place, 8 if i + 1 < len(where) else 0) for i, place in enumerate(where))
    return f"records {out.hex() or '-'}\nstrings {strings.hex()}\n"


def later_place(records, places, name):
    """Where the name of a parent stands: of a version and not of the base."""
    if name != records[0][1][0]:
        return places[name]
    place = 1 + len(name) + 1
    for _, names in records[1:]:
        if names[0] == name:
            return place
        place += len(names[0]) + 1
    return places[name]


def written(program, soname, text):
    """What the program writes for a script."""
    manifest = json.dumps({"soname": soname, "version_script": text}).encode()
    return subprocess.run([*program, "verdef"], input=manifest, capture_output=True).stdout.decode()


def without_parents(text):
    """A script whose versions extend none."""
    return re.sub(r"} [^;{}]+;", "};", text)


def check_script(program, name, soname, text):
    """Compares the definitions of one script; answers for each linker at hand whether nothing differs."""
    ours, without = written(program, soname, text), written(program, soname, without_parents(text))
    with open("map", "w", encoding="utf-8") as file:
        file.write(text + "\n")
    right = []
    for linker, command in LINKERS.items():
        if shutil.which(command) is None:
            continue
        words = [command, "-shared", "-soname", soname, "--version-script=map", "-o", "out.so", "f.o"]
        done = subprocess.run(words, capture_output=True, text=True)
        theirs = laid_out(records_of("out.so")) if done.returncode == 0 else done.stderr
        expected = without if linker in WITHOUT_PARENTS else ours
        if theirs != expected:
            print(f"verdef, {name}: {linker} writes {theirs!r}, and the program {expected!r}", file=sys.stderr)
        right.append(theirs == expected)
    return right


def check(program):
    """Compares the definitions of all scripts; answers for each and each linker whether nothing differs."""
    before = os.getcwd()
    with tempfile.TemporaryDirectory() as folder:
        os.chdir(folder)
        build(100)
        found = [right for name, (soname, text) in SCRIPTS.items() for right in check_script(program, name, soname, text)]
        os.chdir(before)
    return found

"""Small inputs that linkers answer in different ways, and what each of them answers.

Each case (`linker_cases.py`) is some files, the words that link them, and the answer of the report beside those of GNU ld,
gold, lld and mold; docs/LINKERS.md lists them. A file is written in a few statements, with `;` between two:

    def NAME, weak NAME, unique NAME    a definition: strong, weak, unique
    common NAME SIZE                    a common symbol
    hidden NAME                         NAME, which the file defines or asks for, is hidden
    ref NAME, weakref NAME              a reference: strong, weak
    group SIGNATURE NAME                a weak definition of NAME in a COMDAT group
    signed SECTION NAME                 a definition of NAME in a COMDAT group which a section's symbol signs
    section SECTION                     some data in a section of this name
    version NAME OTHER VERSION          the definition of NAME stands for OTHER@@VERSION too

An answer says which files are loaded and, of names that the case asks for, whose definition a reference means (of `main.o`
or else the first file that has one); or that a name has no definition, or two. What a linker answers is read off its
output: each file has a symbol of its own, each definition another one in its place, and a reference is a word of data.
"""
import json
import os
import re
import shutil
import struct
import subprocess
import sys
import tempfile

import compare
from linker_cases import CASES
from linker_inputs.elf import NO_BITS, SYMBOL_TABLE, ElfFile
from linker_inputs.faults import Warnings
from linker_inputs.main import manifest_of
from linker_inputs.names import Names

LINKERS = {"ld": "ld", "gold": "ld.gold", "lld": "ld.lld", "mold": "mold"}
REFUSED = re.compile(
    r"(?:undefined reference to|undefined symbol:|undefined hidden symbol:|hidden symbol) [`']?(?:[\w.]+: )*(\w+)"
    r"|(?:multiple definition of|duplicate symbol:|Duplicate symbols detected:) [`']?(?:[\w.]+: )*(\w+)"
)


def definition(name, file, weak):
    """A definition, and beside it a symbol that tells the file."""
    bind = ".weak" if weak else ".globl"
    return [f"{bind} {name}", f"{name}:", f"{bind} {name}_in_{file}", f"{name}_in_{file}: .8byte 1"]


def statement(file, kind, name, *rest):
    """The lines of the assembler for one statement."""
    reference = [".data", f".globl {name}_asked_in_{file}", f"{name}_asked_in_{file}: .8byte {name}"]
    lines = {
        "def": [".data", *definition(name, file, False)],
        "weak": [".data", *definition(name, file, True)],
        "unique": [".data", *definition(name, file, False), f".type {name}, %gnu_unique_object"],
        "common": [f".comm {name},{''.join(rest)},8"],
        "hidden": [f".hidden {name}"],
        "ref": reference,
        "weakref": [f".weak {name}", *reference],
        "group": [f'.section .data.{name},"awG",%progbits,{name},comdat', *definition("".join(rest), file, True)],
        "signed": [f'.section .data.{name},"awG",%progbits,.data.{name},comdat', *definition("".join(rest), file, False)],
        "section": [f'.section {name},"aw",%progbits', ".8byte 1"],
        "version": [f".symver {name}, {'@@'.join(rest)}"],
    }
    return lines[kind]


def assemble(file, text):
    """Makes `FILE.o`."""
    lines = [".data", f".globl in_{file}", f"in_{file}: .8byte 0"]
    for part in filter(str.strip, text.split(";")):
        lines += statement(file, *part.split())
    lines.append('.section .note.GNU-stack,"",%progbits')
    subprocess.run(["cc", "-c", "-x", "assembler", "-o", f"{file}.o", "-"], input="\n".join(lines) + "\n", text=True, check=True)


def build(case):
    """Makes the files of a case in the folder at hand."""
    for file, text in case.files.items():
        assemble(file, text)
    for library, members in case.libraries.items():
        make = ["ld", "-shared", "-soname", library, "-o"] if library.endswith(".so") else ["ar", "rcs"]
        subprocess.run([*make, library, *(f"{member}.o" for member in members)], check=True)
    for name, text in case.texts.items():
        with open(name, "w", encoding="utf-8") as file:
            file.write(text)


def asking_file(case, name):
    """The file whose reference a case asks about."""
    return next(file for file, text in case.files.items() if re.search(rf"ref {name}\b", text))


def plain(name):
    """The name of a case's file by that of an object."""
    return re.sub(r"^.*[(/]|\.o\)?$", "", name)


def told(loaded, meanings, exports):
    """An answer as a text."""
    parts = ["loads " + " ".join(sorted(loaded))]
    parts += [f"{name} is {file}'s" if file else f"{name} is null" for name, file in meanings.items()]
    parts += [f"{name} is {'exported' if holds else 'local'}" for name, holds in exports.items()]
    return ", ".join(parts)


def refusal(text):
    """A refusal as an answer."""
    found = REFUSED.search(text)
    if found:
        return f"no definition of {found[1]}" if found[1] else f"two definitions of {found[2]}"
    return "refuses"


def report_answer(case, program):
    """What the report says; a name that an executable lacks is what a linker refuses."""
    written = manifest_of(case.words.split(), Warnings(), case.lenient)
    done = subprocess.run([*program, "link", "2"], input=written, capture_output=True)
    text, manifest = done.stdout.decode(), json.loads(written)
    if done.returncode:
        return refusal(text)
    places, _, undefined, meaning, _ = compare.parts_of_report(text)
    owners = [(plain(manifest["objects"][place]["name"]) if symbol else None, symbol) for place, symbol in compare.owners_of(manifest)]
    loaded = {plain(manifest["objects"][place]["name"]) for place in places}
    lacking = {symbol["name"] for file, symbol in owners if file in loaded and symbol["place"] == "undefined" and symbol.get("bind") != "weak"}
    if lacking & undefined and manifest["output"] != "shared":
        return f"no definition of {min(lacking & undefined)}"
    meanings, exports = {}, {}
    for name in case.asked:
        number = owners.index(next(owner for owner in owners if owner[0] == asking_file(case, name) and owner[1]["name"] == name))
        file, symbol = owners[meaning[number][0]]
        meanings[name] = "the linker" if symbol is None and meaning[number][0] else (file if symbol and symbol["place"] != "undefined" else None)
    for name in case.exported:
        found = [number for number, (file, symbol) in enumerate(owners) if file in loaded and symbol["name"] == name and meaning[number][0] == number]
        exports[name] = any("DOWNGRADE_TO_LOCAL" not in meaning[number][1] for number in found)
    return told(loaded, meanings, exports)


def symbols_of(file):
    """Where each defined symbol of an output stands."""
    number = file.first_of(SYMBOL_TABLE)
    names = Names(file.bytes_of(file.sections[number][6]))
    rows = struct.iter_unpack(file.order + "IBBHQQ", file.bytes_of(number))
    return {names.bytes(name).decode(): value for name, _, _, section, value, _ in rows if section}


def word_at(file, address):
    """The word of data at an address."""
    for number, (_, kind, _, start, _, size, *_) in enumerate(file.sections):
        if kind != NO_BITS and start and start <= address < start + size:
            return struct.unpack_from(file.order + "Q", file.bytes_of(number), address - start)[0]
    raise ValueError(hex(address))


def shared_definer(case, name, libraries):
    """The first of some shared objects that defines a name, or None."""
    defines = re.compile(rf"\b(def|weak) {name}\b")
    return min((library for library in libraries if any(defines.search(case.files[file]) for file in case.libraries[library])), default=None)


def linker_answer(case, linker):
    """What a linker answers, read off its output."""
    environment = {**os.environ, "LC_ALL": "C"}
    done = subprocess.run([linker, *case.words.split(), "-o", "output"], capture_output=True, text=True, env=environment)
    if done.returncode:
        return refusal(done.stdout + done.stderr)
    answer = compare.Answer()
    compare.read_output(answer, "output", "-shared" in case.words)
    with open("output", "rb") as output:
        file = ElfFile("output", output.read())
    places = symbols_of(file)
    meanings = {}
    for name in case.asked:
        value = word_at(file, places[f"{name}_asked_in_{asking_file(case, name)}"])
        owners = [label.rpartition("_in_")[2] for label, place in places.items() if place == value and "_in_" in label]
        owners += [owner for owner, text in case.files.items() if re.search(rf"common {name}\b", text)]
        meanings[name] = (owners + ["the linker"])[0] if value else shared_definer(case, name, answer.shared)
    loaded = {name[3:] for name in places if name.startswith("in_")} | answer.shared
    return told(loaded, meanings, {name: name in answer.exports for name in case.exported})


def check_case(case, program):
    """Links one case by the program and by the linkers at hand; answers whether the report is as expected.

    What a linker answers otherwise than is expected is told, and no more: it is of another version.
    """
    right = True
    before = os.getcwd()
    expected = {name: answer for names, answer in case.answers.items() for name in names.split()}
    with tempfile.TemporaryDirectory() as folder:
        os.chdir(folder)
        build(case)
        for name, answer in expected.items():
            if name != "report" and shutil.which(LINKERS[name]) is None:
                continue
            found = report_answer(case, program) if name == "report" else linker_answer(case, LINKERS[name])
            if found != answer:
                print(f"{case.name}: {name} says `{found}`, not `{answer}`", file=sys.stderr)
                right = right and name != "report"
        os.chdir(before)
    return right


def check(program):
    """Links every case; answers for each whether the report is as expected."""
    return [check_case(case, program) for case in CASES]

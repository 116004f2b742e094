"""The tool's own words: from a linker's words to the manifest on standard output."""

import errno
import os
import subprocess
import sys
import tempfile

from .faults import Fault, Warnings
from .inputs import Inputs
from .manifest import MOST_BYTES, manifest_pieces
from .response_files import expanded, joined, split
from .words import read_words

# The tool's own words, which stand before all others.
OWN = ("--lenient-scripts", "--gc-sections")
HELP = """tools/manifest [--lenient-scripts] [--gc-sections] LINKER WORDS
tools/manifest [--lenient-scripts] [--gc-sections] --from-cc COMPILER WORDS

Reads the files of a link, and writes on standard output the manifest that `link` reads: which symbols each object has.

LINKER WORDS are those of ld: files, -l and -L, --start-group, --whole-archive, --as-needed, -Bstatic, -static, -shared,
-pie, -r, -e, -u, --defsym, --wrap, --version-script, --dynamic-list, --export-dynamic-symbol, --start-lib, -T, @FILE
and so on. Words that change nothing which a manifest tells are passed over; for those that would, there is a warning.
With --from-cc, the compiler is asked (by -###) for the words that it would give to its linker; name objects, not
sources. With --lenient-scripts, the last entry in a pair of braces of a version script or an export list needs no `;`.
With --gc-sections, here or among the linker's words, the manifest also tells which sections refer to which symbols, and
which are kept in any case.

Read are ELF objects of 64 bits, archives (thin ones too), shared objects and linker scripts.
Ends with 0, or with 1 and one line `error: FILE: ..` on standard error. Warnings and progress come on standard error
too.
"""


def words_of_compiler(words):
    """The words that a compiler would give to its linker.

    Response files are put in place first: GCC's driver, where it is given one, hands words on to the linker in another one,
    which is gone as the driver ends.
    """
    words = list(expanded(words))
    try:
        return told_words(words)
    except OSError as reason:
        if reason.errno != errno.E2BIG:
            raise Fault(" ".join(words[:1]), "can't be run") from None
    with tempfile.TemporaryDirectory() as folder:
        return list(expanded(told_words_at_length(words, folder)))


def told_words(words):
    """The words of the last command that a compiler tells."""
    if not words:
        raise Fault("--from-cc", "wants a compiler and its words")
    done = subprocess.run([*words, "-###"], capture_output=True, stdin=subprocess.DEVNULL)
    lines = os.fsdecode(done.stderr).split("\n")
    commands = [line for line in lines if line.startswith(" ")]
    if done.returncode != 0 or not commands:
        raise Fault(words[0], f"tells no linker's words: {[line for line in lines if line][-1:]}")
    if len(commands) > 1:
        raise Fault(words[0], "would compile a source first: name its object")
    return split(commands[-1])[1:]


def told_words_at_length(words, folder):
    """The same, where the words are too many for a command: they stand in a file, and GCC's driver keeps the one that it makes."""
    path = os.path.join(folder, "words")
    with open(path, "wb") as file:
        file.write(os.fsencode(joined(words[1:])))
    told = told_words([words[0], "@" + path])
    if any(word.startswith("@") and not os.path.exists(word[1:]) for word in told):
        told = told_words([words[0], "@" + path, "-save-temps", "-dumpdir", folder + "/"])
    return told


def manifest_of(words, warnings, lenient_scripts=False, collects=False):
    """The bytes of the manifest that a linker's words ask for; with `collects` as if `--gc-sections` stood before them."""
    command = read_words(words, warnings, collects)
    command.lenient_scripts = lenient_scripts
    inputs = Inputs(command, warnings)
    if not inputs.entries:
        raise Fault("LINKER WORDS", "no object is among them")
    written = "".join(manifest_pieces(command, inputs)).encode()
    if len(written) > MOST_BYTES:
        raise Fault("manifest", f"would have {len(written)} bytes, and the program reads {MOST_BYTES}")
    return written


def own_words(words):
    """The tool's own words with which some words begin, and the rest of them."""
    count = next((place for place, word in enumerate(words) if word not in OWN), len(words))
    return words[:count], words[count:]


def main(words):
    """Runs the tool, and answers its status."""
    if sys.stderr is None:
        # Warnings would go to standard output.
        sys.stderr = open(os.devnull, "w", encoding="utf-8")
    if words[:1] == ["--help"] or words == ["-h"]:
        print(HELP, end="")
        return 0
    try:
        own, words = own_words(words)
        if words[:1] == ["--from-cc"]:
            words = words_of_compiler(words[1:])
        sys.stdout.buffer.write(manifest_of(words, Warnings(), *(word in own for word in OWN)))
        sys.stdout.flush()
    except Fault as fault:
        print(f"error: {os.fsencode(str(fault)).decode('utf-8', 'backslashreplace')}", file=sys.stderr)
        return 1
    except BrokenPipeError:
        os.dup2(os.open(os.devnull, os.O_WRONLY), sys.stdout.fileno())
        return 1
    return 0

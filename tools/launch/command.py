"""The words of `wolzhyke`: those of the launch script itself, and those that it hands to the program."""

import os
import pathlib
import re
import subprocess
import sys
import tempfile
import time

from . import checked, proved
from .crates import Crates
from .kit import Kit, NoKit
from .progress import minutes, seconds, tell
from .store import CHECKED, PROVED, Store, sources_of

TOP = pathlib.Path(__file__).resolve().parents[2]
NAME = "link_program"
# The commands that link, by the word that asks for them behind `files`, with the words of tools/manifest that each needs.
LINKING = {None: "link", "--why": "why", "--gc": "gc"}
MANIFEST_WORDS = {"gc": ["--gc-sections"]}
VERSION = "wolzhyke 0.1.0, with the behaviour of libwild 0.11.0"
MOST_WORKERS, MOST_MEMBERS = 256, 100000
# Two statuses of the program, and those that are not its: no manifest can be made of the files, the program can't be built, and an
# interrupt.
NO_COMMAND, NOT_WRITTEN = 2, 5
NO_MANIFEST, NOT_BUILT, INTERRUPTED = 8, 125, 130

HELP = """wolzhyke: which files a link loads, and which definition each symbol means

    ./wolzhyke files [W] -- LINKER WORDS         from object files, archives and shared objects to a report
    ./wolzhyke files [W] --why -- LINKER WORDS   why each of them is loaded, and which definition of a name counts
    ./wolzhyke files [W] --gc -- LINKER WORDS    which sections --gc-sections keeps, whether it is among the words or not
    ./wolzhyke link [W] < MANIFEST               from a manifest (JSON) to a report
    ./wolzhyke why [W] < MANIFEST                why each object is loaded, and which definition of a name counts
    ./wolzhyke gc [W] < MANIFEST                 which sections are live, if those that nothing needs are thrown away
    ./wolzhyke check < MANIFEST                  whether an answer that the manifest claims is that of its link
    ./wolzhyke verdef < MANIFEST                 the version definitions that its version script makes
    ./wolzhyke bulk N [W]                        the summary of a made-up link of N archive members, 1 to 100000
    ./wolzhyke prove                             proves the program, and runs the proved one from then on
    ./wolzhyke --help, -h, help                  this text
    ./wolzhyke --version                         the version, and which program would run

W is the number of workers, 1 to 256; without it there are as many as processors. LINKER WORDS are those of ld.
`cc -### ..` prints the words that a compiler gives to it, and `--from-cc cc ..` in their place asks the compiler for
them. `tools/manifest --help` says more.

The answer comes on standard output; a line `error: ..` in its place says why there is none.

    0    answered                            6    memory ran out
    1    the link or the script is refused   7    what is claimed isn't so
    2    the words are no command            8    of these files no manifest can be made
    3    standard input is no manifest       125  the program can't be built, or isn't proved
    4    standard input can't be read        130  building was interrupted
    5    standard output takes no more

The first call builds the program in some two minutes, from the same sources and with run-time checks: an index out of
range, a sum that overflows or the like ends it by a signal. Nothing is proved by that. `prove` has the checker prove
each function and its contract, in about an hour on four processors, and goes on where an interrupted call left
off. When a source changes, both programs are old.
"""


def stores():
    """The programs that may stand, the best first."""
    crates = Crates(TOP)
    return [Store(crates, NAME, kind) for kind in (PROVED, CHECKED)]


def standing():
    """The best program that is made of the sources as they are, or None."""
    return next((store for store in stores() if store.is_current()), None)


def version():
    """The version, and which program would run."""
    store = standing()
    if store is None:
        is_old = any(it.stands() for it in stores())
        which = "none that is as new as its sources" if is_old else "none is built yet"
    elif store.kind == PROVED:
        which = f"proved by {store.read()['kit']}"
    else:
        which = "with run-time checks, and not proved"
    return f"{VERSION}\nprogram: {which}\n"


def build_checked():
    """Builds the program with checks, if no other call has done so meanwhile. Raises `NoModule` where this kit can't."""
    store = stores()[1]
    with store.building():
        if not store.is_current():
            sources = sources_of(store.crates, NAME)
            with store.room() as made, seconds("building the program with run-time checks, without its proof"):
                checked.build(TOP, NAME, made)
                store.put(made, sources)
    return store


def build_proved():
    """Proves and builds the program, if no other call has done so meanwhile, and tells by which kit."""
    store, start = stores()[0], time.monotonic()
    with store.building():
        if store.is_current():
            tell(f"wolzhyke: proved already, by {store.read()['kit']}\n")
            return store
        sources = sources_of(store.crates, NAME)
        with store.room() as made:
            kit = proved.prove(store.crates, NAME, made)
            store.put(made, sources, kit=kit)
    tell(f"wolzhyke: proved, by {kit}, in {minutes(time.monotonic() - start)}\n")
    return store


def program():
    """The program to run. Where none is as new as its sources, one is built first."""
    try:
        return (standing() or build_checked()).program
    except checked.NoModule as reason:
        tell(f"{reason}\nwolzhyke: this kit builds no program without its proof, so it is proved\n")
        return build_proved().program


def workers():
    """As many workers as there are processors to use."""
    return str(min(len(os.sched_getaffinity(0)), MOST_WORKERS))


def with_workers(words):
    """The words with the number of workers that they leave out."""
    left_out = len(words) == 1 and words[0] in LINKING.values() or words[:1] == ["bulk"] and len(words) == 2
    left_out = left_out or words[:2] == ["files", "--"] or words[:1] == ["files"] and words[2:3] == ["--"] and words[1] in LINKING
    if not left_out:
        return words
    at = 2 if words[0] == "bulk" else 1
    return [*words[:at], workers(), *words[at:]]


def is_command(words):
    """Whether the program takes the words, or they make a manifest first. So nothing is built for a word that is mistyped."""
    if words[:1] == ["bulk"]:
        return len(words) == 3 and is_count(words[1], MOST_MEMBERS) and is_count(words[2], MOST_WORKERS)
    if words in (["check"], ["verdef"]):
        return True
    is_link = len(words) == 2 and words[0] in LINKING.values() and is_count(words[1], MOST_WORKERS)
    return is_link or of_files(words) is not None


def of_files(words):
    """What the program does with a manifest that is made first, and the linker's words that it is made of; None of other words."""
    if words[:1] != ["files"] or len(words) < 3 or not is_count(words[1], MOST_WORKERS):
        return None
    command, rest = (LINKING[words[2]], words[3:]) if words[2] in LINKING else (LINKING[None], words[2:])
    return (command, rest[1:]) if rest[:1] == ["--"] else None


def is_count(word, most):
    """Whether a word is a number from 1 to `most`, as the program reads it."""
    return re.fullmatch("[1-9][0-9]{0,5}", word, re.ASCII) is not None and int(word) <= most


def manifest_of(words):
    """A file with the manifest of a linker's words, from its beginning, or None: then the tool has said why."""
    manifest = tempfile.TemporaryFile()
    if subprocess.run([f"{TOP}/tools/manifest", *words], stdout=manifest).returncode:
        return None
    manifest.seek(0)
    return manifest


def run(words):
    """Runs the program in the place of this one."""
    words = with_workers(words)
    if not is_command(words):
        tell("wolzhyke: `./wolzhyke --help` says which words there are\n")
        return say("error: usage\n") or NO_COMMAND
    files = of_files(words)
    if files is not None:
        command, linker_words = files
        if ask_for_help(linker_words):
            return say(HELP)
        try:
            manifest = manifest_of([*MANIFEST_WORDS.get(command, []), *linker_words])
        except OSError as reason:
            tell(f"error: manifest: {reason.strerror}\n")
            manifest = None
        if manifest is None:
            return NO_MANIFEST
        os.dup2(manifest.fileno(), 0)
        # Where standard input was closed, the file is there already, and would be closed with this program.
        os.set_inheritable(0, True)
        words = [command, words[1]]
    path = program()
    os.execv(path, [path, *words])
    return NOT_BUILT


def ask_for_help(words):
    """Whether words behind `--` ask what words there are."""
    return words[:1] == ["--help"] or words == ["-h"]


def say(text):
    """Writes a text on standard output, and answers the status."""
    try:
        if sys.stdout is None:
            return NOT_WRITTEN
        print(text, end="", flush=True)
    except OSError:
        # What is left in the stream is written at the end of this program, and has to go somewhere.
        os.dup2(os.open(os.devnull, os.O_WRONLY), 1)
        return NOT_WRITTEN
    return 0


def main(words):
    """Runs the launch script, and answers its status."""
    if words[:1] in (["--help"], ["-h"], ["help"]):
        return say(HELP)
    try:
        if words == ["--version"]:
            return say(version())
        if words == ["prove"]:
            build_proved()
            return 0
        return run(words)
    except KeyboardInterrupt:
        tell("\nwolzhyke: interrupted; what is proved by now stays so\n" if words == ["prove"] else "\nwolzhyke: interrupted\n")
        ending = INTERRUPTED
    except (NoKit, proved.NotProved, OSError) as reason:
        tell(f"{reason}\n" if isinstance(reason, proved.NotProved) else f"wolzhyke: {reason}\n")
        ending = NOT_BUILT
    # Crates that are being proved end with this program, which doesn't wait for them.
    sys.stdout.flush()
    os._exit(ending)

#!/usr/bin/env python3
"""Asks which sections of a link of LLVM's archives are live, and prints what it takes beside lld's collection.

    python3 bench/sections.py [PROGRAM] [WORKERS..]

PROGRAM and WORKERS are as for `real.py`, and the link is the one that it makes; by default 1 and 4 workers. The manifest
is written without the references of sections, and with them (`tools/manifest --gc-sections`). `link` reads both, `gc` the
second. lld links without `--gc-sections` and with it, where lld is there. A line each: the step, the seconds it took (the
least of three runs), and the most memory that it held. Below lld stands the phase in which it marks live sections.
"""

import json
import os
import pathlib
import shutil
import subprocess
import tempfile

from real import SOURCE, TOP, llvm_words, run, show
from words import program_and_counts

from linker_inputs.main import words_of_compiler

LLD = ["ld.lld", "--time-trace"]


def marking():
    """The seconds in which lld marked live sections, by what it traced; none where it tells of no such phase."""
    with open("output.time-trace", encoding="utf-8") as file:
        events = json.load(file)["traceEvents"]
    return next((event["dur"] / 1e6 for event in events if event["name"] == "Total markLive"), None)


def show_linker(words):
    """What whole links by lld take, without and with its collection."""
    for more in ([], ["--gc-sections"]):
        seconds, held, _ = run([*LLD, *more, *words, "-o", "output"])
        show(" ".join(["lld, the whole link", *more]), seconds, held)
        taken = marking()
        if more and taken is not None:
            show("    markLive", taken)


def main():
    program, workers = program_and_counts("link_program", [1, 4])
    with tempfile.TemporaryDirectory() as folder:
        os.chdir(folder)
        words, headers = llvm_words()
        subprocess.run(["cc", f"-I{headers}", "-c", "-x", "c", "-o", "main.o", "-"], input=SOURCE, text=True, check=True)
        words = words_of_compiler(["c++", "main.o", *words])
        print(f"{'step':36} {'s':>8} {'MB held':>8}")
        for name, more in (("plain", []), ("sections", ["--gc-sections"])):
            seconds, held, manifest = run([str(TOP / "tools" / "manifest"), *more, *words])
            show(" ".join(["tools/manifest", *more]), seconds, held)
            pathlib.Path(name).write_bytes(manifest)
        for command, name in (("link", "plain"), ("link", "sections"), ("gc", "sections")):
            for count in workers:
                seconds, held, answer = run([program, command, str(count)], name)
                show(f"{command} {count}, manifest {name}", seconds, held)
        if shutil.which(LLD[0]):
            show_linker(words)
        os.chdir("/")
    objects = json.loads(manifest)["objects"]
    references = sum(len(table.get("section_refs", [])) for table in objects)
    words_told = {word: sum(line.startswith(word) for line in answer.splitlines()) for word in (b"live", b"dead", b"gone")}
    told = ", ".join(f"{count} {word.decode()}" for word, count in words_told.items())
    print(f"{len(objects)} objects, {references} references of sections, {len(manifest) / 1e6:.1f} MB of manifest; sections: {told}")


if __name__ == "__main__":
    main()

#!/usr/bin/env python3
"""Links a program against LLVM's archives, and prints what each step takes beside whole linkers.

    python3 bench/real.py [PROGRAM] [WORKERS..]

PROGRAM is the built program, crates/link_program/out/link_program by default (./wolzhyke builds it); WORKERS are by
default 1, 2 and 4. It wants a C++ compiler and LLVM's static archives (Debian's `llvm-14-dev`), which an `llvm-config`
names, and tells ld, gold, lld and mold where they are there. A small C program that parses a module, optimises it and
knows the X86 target is linked against all of them, from the manifest by tools/manifest to the report. A line each: the
step, the seconds it took (the least of three runs), and the most memory that it held. Below lld and mold stand phases
that they tell themselves: reading the inputs, in which lld resolves names too, and mold's resolving.
"""

import json
import os
import pathlib
import re
import shutil
import subprocess
import sys
import tempfile
import time

from words import program_and_counts

TOP = pathlib.Path(__file__).resolve().parents[1]
sys.path.insert(0, str(TOP / "tools"))

from linker_inputs.main import words_of_compiler  # noqa: E402

SOURCE = """
#include <llvm-c/Core.h>
#include <llvm-c/IRReader.h>
#include <llvm-c/Target.h>
#include <llvm-c/TargetMachine.h>
#include <llvm-c/Transforms/PassBuilder.h>

int main(int argc, char **argv) {
    LLVMModuleRef module = 0;
    LLVMMemoryBufferRef buffer = 0;
    char *fault = 0;
    LLVMInitializeX86TargetInfo();
    LLVMInitializeX86Target();
    LLVMInitializeX86TargetMC();
    LLVMInitializeX86AsmPrinter();
    LLVMInitializeX86AsmParser();
    if (LLVMCreateMemoryBufferWithContentsOfFile(argv[argc - 1], &buffer, &fault)) return 1;
    if (LLVMParseIRInContext(LLVMGetGlobalContext(), buffer, &module, &fault)) return 1;
    LLVMRunPasses(module, "default<O2>", 0, LLVMCreatePassBuilderOptions());
    return 0;
}
"""
LINKERS = {"GNU ld": ["ld"], "gold": ["ld.gold"], "lld": ["ld.lld", "--time-trace"], "mold": ["mold", "--no-fork", "--perf"]}


def llvm_words():
    """The compiler's words for all of LLVM's archives that are there, and for what they need, with the folder of its headers."""
    config = next((found for found in map(shutil.which, ("llvm-config-14", "llvm-config")) if found), None)
    if config is None:
        sys.exit("bench/real.py: there is no llvm-config")

    def ask(*words):
        return subprocess.run([config, "--link-static", *words], capture_output=True, text=True, check=True).stdout.split()

    folder = ask("--libdir")[0]
    archives = [word for word in ask("--libs", "all") if os.path.exists(f"{folder}/lib{word[2:]}.a")]
    return [f"-L{folder}", *archives, *ask("--system-libs")], ask("--includedir")[0]


def run(command, source=None):
    """The least seconds of three runs, the most MB that was held, and what the last run wrote."""
    best, held = None, 0
    for _ in range(3):
        with tempfile.TemporaryFile() as sink, open(source or os.devnull, "rb") as stdin:
            start = time.monotonic()
            child = subprocess.Popen(command, stdin=stdin, stdout=sink, stderr=subprocess.DEVNULL)
            _, status, usage = os.wait4(child.pid, 0)
            seconds = time.monotonic() - start
            child.returncode = os.waitstatus_to_exitcode(status)
            if child.returncode != 0:
                sys.exit(f"{command[0]} ended with status {child.returncode}")
            sink.seek(0)
            written = sink.read()
        best, held = min(best or seconds, seconds), max(held, usage.ru_maxrss)
    return best, held / 1024, written


def show(step, seconds, held=None):
    """One line."""
    print(f"{step:36} {seconds:8.3f}" + (f" {held:8.1f}" if held is not None else ""), flush=True)


def linker_phases(name, written):
    """The phases that a linker tells: a name and seconds each."""
    if name == "lld":
        with open("output.time-trace", encoding="utf-8") as file:
            events = json.load(file)["traceEvents"]
        return [(event["name"], event["dur"] / 1e6) for event in events if event["name"] in ("Total Parse input files", "Total Link")]
    if name == "mold":
        rows = re.findall(r"^ +[\d.]+ +[\d.]+ +([\d.]+) +(read_input_files|resolve_symbols|all)$", written.decode(), re.M)
        return [(phase, float(seconds)) for seconds, phase in rows]
    return []


def main():
    program, workers = program_and_counts("link_program", [1, 2, 4])
    with tempfile.TemporaryDirectory() as folder:
        os.chdir(folder)
        words, headers = llvm_words()
        subprocess.run(["cc", f"-I{headers}", "-c", "-x", "c", "-o", "main.o", "-"], input=SOURCE, text=True, check=True)
        words = words_of_compiler(["c++", "main.o", *words])
        print(f"{'step':36} {'s':>8} {'MB held':>8}")
        seconds, held, manifest = run([str(TOP / "tools" / "manifest"), *words])
        show("tools/manifest", seconds, held)
        pathlib.Path("manifest").write_bytes(manifest)
        for count in workers:
            seconds, held, report = run([program, "link", str(count)], "manifest")
            show(f"link {count}", seconds, held)
        for name, (command, *more) in LINKERS.items():
            if shutil.which(command):
                seconds, held, written = run([command, *more, *words, "-o", "output"])
                show(f"{name}, the whole link", seconds, held)
                for phase, taken in linker_phases(name, written):
                    show(f"    {phase}", taken)
        os.chdir("/")
    symbols, loaded = report.count(b"\nsymbol "), report.count(b"\nloaded ") + report.startswith(b"loaded ")
    objects = len(json.loads(manifest)["objects"])
    print(f"{objects} objects, {loaded} loaded, {symbols} symbols, {len(manifest) / 1e6:.1f} MB of manifest, {len(report) / 1e6:.1f} MB of report")


if __name__ == "__main__":
    main()

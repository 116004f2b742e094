#!/usr/bin/env python3
"""Refuses each allocation of a built program in turn, and looks at how the program ends.

    tools/refuse_allocations.py PROGRAM [--every] [--jobs J] [NAME..]

The commands are those of the names, or one of each kind; with `--every` all worked examples with two workers, and all
commands of this folder. Each runs twice for each of its allocations: that one alone is refused, or that one and all
behind it. A library in front of the C library's counts and refuses them; `cc` builds it. A run has to end with status 6
and nothing written, or, where the program could do without, with the status and the bytes that are due. What ends
otherwise is told with the allocation's number; then the status is 1. J commands (one a processor) are tried side by
side.
"""
import argparse
import concurrent.futures
import os
import pathlib
import subprocess
import sys
import tempfile

import run_rows

# One of each: a link, an explanation, live sections, a check, a made-up link, a version script, every key, each cause of a refusal, each kind of fault, no
# command.
NAMES = """
    members_that_are_asked_for why_members_are_loaded why_a_forced_name_comes_before_a_redirect why_a_version_counts why_in_two_batches
    gc_reference_into_a_member gc_member_brings_the_group_4
    check_members_are_loaded check_a_loaded_member_is_missing check_groups_are_kept check_a_kept_group_too_many check_start_and_stop_symbols
    check_an_entry_differs check_two_version_scripts check_without_a_claim
    made_up_bulk_10_3 a_script_makes_a_name_local every_key a_version_is_given one_group_is_kept
    a_start_symbol_is_made a_wrapped_name_finds_its_wrapper two_references_of_which_the_last_stands
    refused_version_script_before_export_list refused_export_list_before_forced refused_first_forced refused_linker_script_text
    refused_version_text_and_script refused_scripts_before_stubs refused_stubs_before_sections refused_sections_before_no_link
    refused_no_inputs refused_first_object_with_groups refused_duplicates_sorted refused_undefined_version
    no_bytes root_is_a_list root_unknown last_of_equal_keys platform_coff entry_1 allow_multiple_0 files_per_group_1_5 wrap_1 objects_5
    objects_6 objects_7 custom_sections_repeated symbol_place_0 group_members_2 table_undefined_local table_versionless
    table_section_range table_signature_range table_member_range table_header_twice table_header_is_member words_none
""".split()

# Counts allocations from the program's start, refuses those from FIRST up to LAST, and writes at the end how many there were.
LIBRARY = r"""
#include <errno.h>
#include <stdatomic.h>
#include <stdio.h>
#include <stdlib.h>
#include <sys/syscall.h>
#include <unistd.h>

extern void *__libc_malloc(size_t), *__libc_calloc(size_t, size_t), *__libc_realloc(void *, size_t), *__libc_memalign(size_t, size_t);

static atomic_ulong calls;
static unsigned long first = -1ul, last;

__attribute__((constructor)) static void start(void) {
    first = strtoul(getenv("REFUSE_FIRST"), 0, 10);
    last = strtoul(getenv("REFUSE_LAST"), 0, 10);
    calls = 0;
}

/* The program ends by this call, which runs no destructors. */
void _exit(int status) {
    char text[24];
    int length = snprintf(text, sizeof text, "%lu", calls);
    if (write(atoi(getenv("REFUSE_COUNT")), text, length) < 0) status = 125;
    for (;;) syscall(SYS_exit_group, status);
}

static int refused(void) {
    unsigned long call = ++calls;
    if (call < first || last < call) return 0;
    errno = ENOMEM;
    return 1;
}

void *malloc(size_t size) { return refused() ? 0 : __libc_malloc(size); }
void *calloc(size_t count, size_t size) { return refused() ? 0 : __libc_calloc(count, size); }
void *realloc(void *old, size_t size) { return refused() ? 0 : __libc_realloc(old, size); }
void *memalign(size_t align, size_t size) { return refused() ? 0 : __libc_memalign(align, size); }
void *aligned_alloc(size_t align, size_t size) { return memalign(align, size); }
int posix_memalign(void **place, size_t align, size_t size) { return (*place = memalign(align, size)) ? 0 : ENOMEM; }
"""


def built_library(folder, text=LIBRARY):
    """The path of a library of this text of C, built in the folder."""
    source = folder / "front.c"
    source.write_text(text)
    library = folder / "libfront.so"
    subprocess.run(["cc", "-O2", "-shared", "-fPIC", "-o", library, source], check=True)
    return library


def ran(library, program, words, stdin, first, last):
    """A run with the allocations from `first` to `last` refused: its status, what it wrote, and how many allocations it made.

    The count is read from a pipe of its own; none is made by a program that a signal ended."""
    reading, writing = os.pipe()
    environment = {"LD_PRELOAD": str(library), "REFUSE_FIRST": str(first), "REFUSE_LAST": str(last), "REFUSE_COUNT": str(writing)}
    try:
        done = subprocess.run([program, *words.split()], input=stdin, capture_output=True, env=environment, pass_fds=[writing], timeout=60)
    finally:
        os.close(writing)
        with os.fdopen(reading) as pipe:
            count = pipe.read()
    return done.returncode, done.stdout, int(count or 0)


def tried(library, program, name, words, stdin, due):
    """Refuses each allocation of a command. Answers lines that tell what ended otherwise, and how many allocations, runs, and
    runs that did without it was."""
    wrong, runs, without, number = [], 0, 0, 0
    status, text, count = ran(library, program, words, stdin, 0, 0)
    if (status, text) != due or count == 0:
        wrong.append(f"{name}: status {status}, {count} allocations or other bytes where none is refused")
    while number < count:
        number += 1
        for last in (number, sys.maxsize):
            status, text, _ = ran(library, program, words, stdin, number, last)
            runs += 1
            if (status, text) == due:
                without += 1
            elif (status, text) != (6, b""):
                behind = " and all behind it" if last > number else ""
                wrong.append(f"{name}: allocation {number}{behind} refused: status {status}, {len(text)} bytes: {text[:80]!r}")
    return wrong, count, runs, without


def commands(names, every):
    """The commands of these names, or of all: a name, the words, standard input, and the status and the bytes that are due."""
    folder = pathlib.Path(__file__).parent
    found = {}
    for name, words, stdin, status, stdout in [*run_rows.worked_examples(folder), *run_rows.commands(folder)]:
        name, _, workers = name.partition(", ")
        if workers in ("", "2 workers"):
            found[name] = (words, stdin.encode(), (status, stdout.encode()))
    return [(name, *found[name]) for name in (found if every else names)]


def main():
    reader = argparse.ArgumentParser(usage=__doc__)
    reader.add_argument("program")
    reader.add_argument("names", nargs="*", default=NAMES)
    reader.add_argument("--every", action="store_true")
    reader.add_argument("--jobs", type=int, default=os.cpu_count())
    given = reader.parse_intermixed_args()
    program = str(pathlib.Path(given.program).resolve())
    all_runs = all_wrong = 0
    with tempfile.TemporaryDirectory() as folder, concurrent.futures.ThreadPoolExecutor(given.jobs) as pool:
        library = built_library(pathlib.Path(folder))
        chosen = commands(given.names, given.every)
        for (name, *_), (wrong, count, runs, without) in zip(chosen, pool.map(lambda row: tried(library, program, *row), chosen)):
            print(f"{name}: {count} allocations, {runs} runs, {without} did without")
            for line in wrong:
                print(line, file=sys.stderr)
            all_runs += runs
            all_wrong += len(wrong)
    print(f"{len(chosen)} commands, {all_runs} runs, {all_wrong} wrong")
    sys.exit(1 if all_wrong else 0)


if __name__ == "__main__":
    main()

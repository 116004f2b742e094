#!/usr/bin/env python3
"""Lets each call fail by which a built program reads or writes, and looks at how the program ends.

    tools/fail_streams.py PROGRAM

A library in front of the C library's, which `cc` builds, gives 7 bytes a call of standard input and takes 5 a call of
standard output. On `link 2` of `examples/archive.json`: where read k fails the status has to be 4, and where write k
fails 5, with just the 5 (k - 1) bytes before it written; where both fail at once 5, with nothing written; where k is
behind the last call, and where every other call is interrupted, or all calls give and take as much as they can, 0 with
the report. What ends otherwise is told; then the status is 1.
"""
import os
import pathlib
import subprocess
import sys
import tempfile

from refuse_allocations import built_library

READ, WRITE = 7, 5

# Reads and writes pieces; fails at a call, or is interrupted at every other one.
LIBRARY = r"""
#include <errno.h>
#include <stdlib.h>
#include <sys/syscall.h>
#include <unistd.h>

static long told(const char *name) { return strtol(getenv(name), 0, 10); }

static ssize_t call(int number, int fd, void *bytes, size_t count, unsigned long *calls, long fails, size_t piece) {
    static int interrupted;
    if (told("INTERRUPTS") && (interrupted = !interrupted)) { errno = EINTR; return -1; }
    if (++*calls == fails) { errno = EIO; return -1; }
    return syscall(number, fd, bytes, count < piece ? count : piece);
}

ssize_t read(int fd, void *bytes, size_t count) {
    static unsigned long calls;
    return call(SYS_read, fd, bytes, count, &calls, told("FAILING_READ"), told("READ_PIECE"));
}

ssize_t write(int fd, const void *bytes, size_t count) {
    static unsigned long calls;
    return call(SYS_write, fd, (void *)bytes, count, &calls, told("FAILING_WRITE"), told("WRITE_PIECE"));
}
"""


def cases(manifest, report):
    """The calls that fail (0: none), whether others are interrupted, the pieces, and the status and bytes that are due."""
    pieces, fault = (READ, WRITE), b"error: read fault\n"
    reads, writes = -(-len(manifest) // READ) + 1, -(-len(report) // WRITE)
    for k in range(1, reads + 3):
        yield k, 0, 0, pieces, (4, fault) if k <= reads else (0, report)
    for k in range(1, writes + 3):
        yield 0, k, 0, pieces, (5, report[:WRITE * (k - 1)]) if k <= writes else (0, report)
    for k in range(1, -(-len(fault) // WRITE) + 1):
        yield 1, k, 0, pieces, (5, fault[:WRITE * (k - 1)])
    yield 0, 0, 1, pieces, (0, report)
    yield 3, 0, 1, pieces, (4, fault)
    yield 0, 3, 1, pieces, (5, report[:WRITE * 2])
    yield 0, 0, 0, (1 << 20, 1 << 20), (0, report)
    yield 1, 0, 0, (1 << 20, 1 << 20), (4, fault)
    yield 0, 1, 0, (1 << 20, 1 << 20), (5, b"")


def main():
    if len(sys.argv) != 2 or sys.argv[1] in ("-h", "--help"):
        print(__doc__.strip())
        sys.exit(0 if sys.argv[1:] in (["-h"], ["--help"]) else 2)
    program = os.path.abspath(sys.argv[1])
    examples = pathlib.Path(__file__).parent.parent / "examples"
    manifest, report = ((examples / f"archive.{end}").read_bytes() for end in ("json", "report"))
    runs = wrong = 0
    with tempfile.TemporaryDirectory() as folder:
        library = built_library(pathlib.Path(folder), LIBRARY)
        for read, write, interrupts, (read_piece, write_piece), due in cases(manifest, report):
            told = {"FAILING_READ": read, "FAILING_WRITE": write, "INTERRUPTS": interrupts, "READ_PIECE": read_piece, "WRITE_PIECE": write_piece}
            environment = {"LD_PRELOAD": str(library), **{name: str(value) for name, value in told.items()}}
            done = subprocess.run([program, "link", "2"], input=manifest, capture_output=True, env=environment)
            runs += 1
            if (done.returncode, done.stdout) != due:
                wrong += 1
                print(f"{told}: status {done.returncode}, not {due[0]}, or other bytes: {done.stdout[:80]!r}", file=sys.stderr)
    print(f"{runs} runs, {wrong} wrong")
    sys.exit(1 if wrong else 0)


if __name__ == "__main__":
    main()

#!/usr/bin/env python3
"""Runs a built program on manifests that are made to hurt, and under limits of memory.

    tools/hostile.py PROGRAM [--megabytes M] [--seconds S] [--bytes B] [--nanoseconds N] [PART..]

PART is `shapes`, `products`, `longest`, `stack` or `limits` (all of them if none is given):

- shapes: manifests of M megabytes (10 if not given), each of one thing again and again: values that say nothing in few
  bytes, texts, numbers, and links of many equal names, objects, sections, groups and options.
- products: what takes the time of a product: names of one FNV-1a slot with the bits of their numbers, patterns that
  begin and end with a star with names, a long pattern with a long name.
- longest: texts of the greatest length that is read, and a byte more.
- stack: links and refusals with one worker and a stack that can't grow past the 128 KiB which each process has from the
  start, and the least stack that they need.
- limits: links under a limit of the address space, from what the program needs to say that it wants words to what the
  link needs: each ends with status 6 and nothing written, or with the bytes that are due.

Prints a line for each: how it ended, processor seconds, and the most memory that it held, in bytes for a byte of text.
A run that ends by a signal, otherwise than is due, after more than S seconds (10 if not given) for 10 megabytes, with
more than B bytes a byte (150 if not given), or with more than N nanoseconds a step of a product (1000 if not given), is
told; then the status is 1.
"""
import argparse
import itertools
import os
import pathlib
import sys
import tempfile

import run_rows
from measured import Text, numbered, repeated, run

PARTS = ("shapes", "products", "longest", "stack", "limits")
# The texts that are read under limits of memory.
LIMITED = ("objects in objects", "objects in a list", "names", "weak definitions of a name", "objects that clash", "exported patterns")
# What the system gives a stack before it has to grow, in bytes.
STACK = 128 << 10
# What a process of Python and the program hold without any text, in bytes.
AT_FIRST = 24 << 20


def among(front, piece, back, size, last=b""):
    """Text of about so many bytes: a piece again and again, with numbers where it has `%d`, then a last one, between a front and a back."""
    yield front
    yield from numbered(piece, size) if b"%d" in piece else repeated(piece, size)
    yield last + back


def nested(opening, inner, closing, depth):
    return opening * depth + inner + closing * depth


# Values: a front, a piece, a last piece, a back, the status and how the answer begins.
NO_OBJECT = (3, b"error: manifest: expected object\n")
NO_JSON = (3, b"error: manifest: not JSON\n")
NO_NUMBER = (3, b"error: manifest: files_per_group: expected number\n")
VALUES = {
    "numbers in a list": (b"[", b"0,", b"0", b"]", NO_OBJECT),
    "lists in a list": (b"[", b"[],", b"0", b"]", NO_OBJECT),
    "objects in a list": (b"[", b"{},", b"0", b"]", NO_OBJECT),
    "texts in a list": (b"[", b'"",', b"0", b"]", NO_OBJECT),
    "words in a list": (b"[", b"null,", b"0", b"]", NO_OBJECT),
    "lists of one": (b"[", b"[0],", b"0", b"]", NO_OBJECT),
    "objects of one": (b"[", b'{"":0},', b"0", b"]", NO_OBJECT),
    "objects of three": (b"[", b'{"":0,"a":0,"b":0},', b"0", b"]", NO_OBJECT),
    "objects in objects": (b"[", nested(b'{"":', b"0", b"}", 120) + b",", b"0", b"]", NO_OBJECT),
    "lists in lists": (b"[", nested(b"[", b"0", b"]", 120) + b",", b"0", b"]", NO_OBJECT),
    "lists that stay open": (b"", b"[", b"", b"", NO_JSON),
    "objects that stay open": (b"", b'{"":', b"", b"", NO_JSON),
    "a list that stays open": (b"[", b"0,", b"", b"", NO_JSON),
    "blanks": (b"", b" \t\r\n", b"", b"[]", NO_OBJECT),
    "equal keys": (b"{", b'"a":0,', b'"a":0', b"}", (3, b"error: manifest: a: unknown key\n")),
    "keys of their own": (b"{", b'"k%d":0,', b'"a":0', b"}", (3, b"error: manifest: a: unknown key\n")),
    "empty keys": (b"{", b'"":0,', b'"":0', b"}", (3, b"error: manifest: : unknown key\n")),
    "the last of equal keys": (b"{", b'"objects":0,', b'"objects":[{"name":""}]', b"}", (0, b"loaded 0 \n")),
    "a long key": (b'{"', b"k", b"", b'":0}', (3, b"error: manifest: kkk")),
    "a long word": (b'{"platform":"', b"elf", b"", b'"}', (3, b"error: manifest: platform: expected word\n")),
    "a long number": (b'{"files_per_group":', b"9", b"", b"}", NO_JSON),
    "a long fraction": (b'{"files_per_group":1.', b"0", b"", b"}", NO_NUMBER),
    "a long exponent": (b'{"files_per_group":1e', b"0", b"1", b"}", NO_NUMBER),
    "a number past all": (b'{"files_per_group":1e', b"9", b"", b"}", NO_JSON),
    "long fractions": (b"[", b"0.1234567890123456789,", b"0", b"]", NO_OBJECT),
    "a text without an end": (b'{"entry":"', b"a", b"", b"", NO_JSON),
    "no digits": (b'{"entry":{"hex":"', b"0g", b"", b'"}}', (3, b"error: manifest: entry: expected bytes\n")),
}

# Links of one object, or of objects: what stands in the root before its objects, the front, piece and back of a list.
LOADED = (0, b"loaded 0 a.o\n")
SYMBOLS = (b'{"objects":[{"name":"a.o","sections":4,"symbols":[', b'{"name":"last","place":1}', b"]}]}")
LINKS = {
    "a long name": (b'{"objects":[{"name":"a.o","symbols":[{"name":"', b"n", b"", b'","place":"undefined"}]}]}', LOADED),
    "a name of escapes": (b'{"objects":[{"name":"a.o","symbols":[{"name":"', b"\\u0041", b"", b'","place":"undefined"}]}]}', LOADED),
    "a name of pairs": (b'{"objects":[{"name":"a.o","symbols":[{"name":"', b"\\ud83d\\ude00", b"", b'","place":"undefined"}]}]}', LOADED),
    "a name of line feeds": (b'{"objects":[{"name":"a.o","symbols":[{"name":"', b"\\n", b"", b'","place":"undefined"}]}]}', LOADED),
    "a name of digits": (b'{"objects":[{"name":"a.o","symbols":[{"name":{"hex":"', b"ff", b"", b'"},"place":"undefined"}]}]}', LOADED),
    "objects without a symbol": (b'{"objects":[{"name":"a.o"}', b',{"name":""}', b"", b"]}", LOADED),
    "sections": (b'{"objects":[{"name":"a.o","sections":4294967294', b" ", b"", b"}]}", LOADED),
    "objects of many sections": (b'{"objects":[{"name":"a.o"}', b',{"name":"","sections":9999}', b"", b"]}", LOADED),
    "names": (SYMBOLS[0], b'{"name":"n%d","place":1},', *SYMBOLS[1:], LOADED),
    "empty names": (SYMBOLS[0], b'{"name":"","place":1},', *SYMBOLS[1:], None),
    "weak definitions of a name": (SYMBOLS[0], b'{"name":"f","place":1,"bind":"weak"},', *SYMBOLS[1:], LOADED),
    "versions of a name": (SYMBOLS[0], b'{"name":"f","place":1,"bind":"weak","version":"V%d"},', *SYMBOLS[1:], LOADED),
    "common ones, each larger": (SYMBOLS[0], b'{"name":"f","place":"common","size":%d},', *SYMBOLS[1:], LOADED),
    "references to a name": (SYMBOLS[0], b'{"name":"f","place":"undefined"},', *SYMBOLS[1:], LOADED),
    "references of their own": (SYMBOLS[0], b'{"name":"n%d","place":"undefined"},', *SYMBOLS[1:], LOADED),
    "references to versions": (SYMBOLS[0], b'{"name":"f","place":"undefined","version":"V%d"},', *SYMBOLS[1:], LOADED),
    "objects that clash": (b'{"objects":[{"name":"a.o"}', b',{"name":"","sections":1,"symbols":[{"name":"f","place":0}]}', b"", b"]}",
                           (1, b"error: Duplicate symbols detected: f, defined in  and \n")),
    "members that nothing asks for": (b'{"objects":[{"name":"a.o"}',
                                      b',{"name":"","archive":true,"sections":1,"symbols":[{"name":"f","place":0}]}', b"", b"]}", LOADED),
    "groups of a signature": (b'{"objects":[{"name":"a.o"}', b',{"name":"","sections":1,"groups":[{"header":0,"signature":0}]}', b"", b"]}", LOADED),
    "members of a group": (b'{"objects":[{"name":"a.o","sections":9,"groups":[{"header":0,"signature":0,"members":[1', b",2", b"", b"]}]}]}",
                           (1, b"error: a.o: section 2 belongs to multiple groups\n")),
    "wrapped names": (b'{"objects":[{"name":"a.o","symbols":[{"name":"n9","place":"undefined"}]}],"wrap":["n9"', b',"n%d"', b"", b"]}", LOADED),
    "one wrapped name": (b'{"objects":[{"name":"a.o","symbols":[{"name":"n","place":"undefined"}]}],"wrap":["n"', b',"n"', b"", b"]}", LOADED),
    "forced names": (b'{"objects":[{"name":"a.o"}],"force_undefined":["n"', b',"n%d"', b"", b"]}", LOADED),
    "exported names": (b'{"objects":[{"name":"a.o"}],"force_export":["n"', b',"n%d"', b"", b"]}", LOADED),
    "exported patterns": (b'{"objects":[{"name":"a.o"}],"force_export":["n"', b',"n%d*"', b"", b"]}", LOADED),
    "custom sections": (b'{"objects":[{"name":"a.o"}],"custom_sections":["n"', b',"n%d"', b"", b"]}", LOADED),
    "the last section twice": (b'{"objects":[{"name":"a.o"}],"custom_sections":["n"', b',"n%d"', b',"n"', b"]}", (3, b"error: manifest: custom_sections[")),
    "redirects": (b'{"objects":[{"name":"a.o"}],"defsym":[{"name":"n"}', b',{"name":"n%d"}', b"", b"]}", LOADED),
    "targets of a redirect": (b'{"objects":[{"name":"a.o"}],"defsym":[{"name":"n","targets":["t"', b',"t%d"', b"", b"]}]}", LOADED),
    "symbols of the linker": (b'{"objects":[{"name":"a.o"}],"linker_symbols":[{"name":"n","placement":"load_base"}',
                              b',{"name":"n%d","placement":"load_base"}', b"", b"]}", LOADED),
    "symbols of a script": (b'{"objects":[{"name":"a.o"}],"scripts":[{"name":"s","symbols":[{"name":"n"}', b',{"name":"n%d"}', b"", b"]}]}", LOADED),
    "batches past the limit": (b'{"objects":[{"name":"a.o"}],"batches":[{}', b",{}", b"", b"]}", (3, b"error: manifest: batches: too many\n")),
    "scripts past the limit": (b'{"objects":[{"name":"a.o"}],"scripts":[{"name":"s"}', b',{"name":"s"}', b"", b"]}", (1, b"error: Too many linker scripts: ")),
    "names of a stub library": (b'{"objects":[{"name":"a.o"}],"stubs":[{"name":"l","weak":["n"', b',"n%d"', b"", b"]}]}", LOADED),
}


# Each leads the FNV-1a number behind `n` back to itself, in its lowest 28 bits. By that number the database found names once, so that names of
# these blocks fell in one of its slots; by SipHash they are spread as any others.
BLOCKS = """02f055e1 0c5ee6ec 189204e6 287f0af9 2d9bb6fa 3e995bfe 4333f5f5 4440f2f6 49f23af7 5ee74bf4 69b8728d 7af7fc81 7f1ae382 8380b3c8 8d62a2cb
    8eac5634 949339cc 9e31a8cf a39a9bc6 a43811c7 aacd4ac1 b49d6dda b975c7db bfc89cc5 c0218bdc d0be83d7 d514d1d0 dff280d3 f1439bed fb1d68e8""".split()


def chosen_names(count):
    """A manifest of definitions whose names were chosen against FNV-1a."""
    yield SYMBOLS[0]
    for blocks in itertools.islice(itertools.product(BLOCKS, repeat=4), count):
        yield b'{"name":{"hex":"6e%s"},"place":1},' % "".join(blocks).encode()
    yield SYMBOLS[1] + SYMBOLS[2]


def of_patterns(patterns, names):
    """A manifest of an object with these names, and a version script with these patterns."""
    yield b'{"output":"shared","version_script":"{ global: ' + b"".join(pattern + b"; " for pattern in patterns) + b'local: *; };",'
    yield b'"objects":[{"name":"a.o","sections":2,"symbols":[' + b",".join(b'{"name":"%s","place":1}' % name for name in names) + b"]}]}"


def products():
    """What takes the time of a product: a name, the pieces of a manifest, and the number of steps."""
    yield "names of one FNV-1a slot", chosen_names(140_000), 140_000 * 64
    yield "patterns and names", of_patterns([b"*x%d*" % n for n in range(3000)], [b"name%d" % n for n in range(3000)]), 3000 ** 2
    yield "a long pattern and name", of_patterns([b"*" + b"a" * 5_000 + b"b"], [b"a" * 20_000]), 5_000 * 20_000
    yield "a long class and name", of_patterns([b"*[" + b"b" * 20_000 + b"]x"], [b"a" * 5_000]), 5_000 * 20_000
    yield "many stars", of_patterns([b"*a" * 20_000 + b"*b"], [b"a" * 40_000]), 20_000 + 40_000


def shapes(size):
    """A name, the pieces of a manifest, and how it is to end; none where it may end with 0 or 1."""
    for name, (front, piece, last, back, due) in [*VALUES.items(), *LINKS.items()]:
        yield name, among(front, piece, back, size, last), due


def longest():
    """Texts of 2^28 bytes, the most that are read, and of one byte more."""
    yield "2^28 bytes", iter([b"{}", *repeated(b" ", (1 << 28) - 2)]), (1, b"error: no input files\n")
    yield "2^28 + 1 bytes", iter([b"{}", *repeated(b" ", (1 << 28) - 1)]), (3, b"error: manifest: too long\n")


def is_due(done, due):
    if due is None:
        return done.status in (0, 1)
    return done.status == due[0] and done.text.startswith(due[1])


def run_texts(program, texts, seconds, most):
    """Runs the texts with two workers, and answers lines for what was otherwise than is due, or past a bound."""
    wrong = []
    print(f"{'text':>30} {'MB':>7} {'status':>6} {'s':>7} {'s / 10 MB':>9} {'MB held':>8} {'bytes a byte':>12}", flush=True)
    for name, pieces, due in texts:
        with tempfile.TemporaryDirectory() as folder:
            done = run(program, "link 2", Text(folder, pieces))
        each, held = done.seconds * 1e7 / done.size, max(0, done.held - AT_FIRST) / done.size
        print(f"{name:>30} {done.size / 1e6:7.2f} {done.status:6} {done.seconds:7.2f} {each:9.2f} {done.held / 1e6:8.1f} {held:12.1f}", flush=True)
        if not is_due(done, due) or max(done.seconds, 0.1) > seconds * max(done.size, 1e5) / 1e7 or done.held > AT_FIRST + most * done.size:
            wrong.append(f"{name}: status {done.status}, {done.seconds:.2f} s, {held:.1f} bytes a byte: {done.text[:80]!r}")
    return wrong


def run_products(program, most):
    """Runs what takes the time of a product, and answers lines for what takes longer, in nanoseconds a step, than is allowed."""
    wrong = []
    print(f"{'text':>30} {'MB':>7} {'status':>6} {'s':>7} {'steps':>12} {'ns a step':>9}", flush=True)
    for name, pieces, steps in products():
        with tempfile.TemporaryDirectory() as folder:
            done = run(program, "link 2", Text(folder, pieces))
        each = done.seconds * 1e9 / steps
        print(f"{name:>30} {done.size / 1e6:7.2f} {done.status:6} {done.seconds:7.2f} {steps:12} {each:9.1f}", flush=True)
        if not is_due(done, LOADED) or (done.seconds > 0.1 and each > most):
            wrong.append(f"{name}: status {done.status}, {each:.1f} ns a step: {done.text[:80]!r}")
    return wrong


def least(enough, low, high, step):
    """The least limit of these, but for a step, that is enough."""
    while high - low > step:
        middle = (low + high) // 2
        low, high = (low, middle) if enough(middle) else (middle, high)
    return high


def run_stack(program, size):
    """Runs the worked examples and the commands with one worker, and links of so many bytes, with no more stack than a process has at first. Answers
    lines for what ended otherwise than is due."""
    wrong, folder, most = [], pathlib.Path(__file__).parent, (0, "")
    rows = [row for row in (*run_rows.worked_examples(folder), *run_rows.commands(folder)) if row[1] == "link 1"]
    texts = [(name, iter([stdin.encode()])) for name, _, stdin, *_ in rows] + [(name, pieces) for name, pieces, _ in shapes(size)]
    for name, pieces in texts:
        with tempfile.TemporaryDirectory() as folder:
            text = Text(folder, pieces)
            due, done = (run(program, "link 1", text, stack=stack) for stack in (None, STACK))
            if (done.status, done.text, done.written) != (due.status, due.text, due.written):
                wrong.append(f"{name}: status {done.status}, {done.written} bytes: {done.text[:80]!r}")
            ends = lambda stack: run(program, "link 1", text, stack=stack).status == due.status
            if not ends(most[0]):
                most = least(ends, most[0], 1 << 20, 1024), name
    print(f"{len(texts)} texts, the most stack is {most[0] >> 10} KiB: {most[1]}", flush=True)
    return wrong


def run_limits(program, size):
    """Runs links of up to so many bytes under limits of the address space. Answers lines for what ended otherwise than is due."""
    wrong, folder = [], pathlib.Path(__file__).parent
    rows = {name: stdin for name, _, stdin, *_ in run_rows.commands(folder)}
    small = [(name, iter([rows[name].encode()])) for name in ("every_key", "custom_sections_repeated", "nesting_of_127")]
    texts = small + [(name, pieces) for name, pieces, _ in shapes(size) if name in LIMITED]
    with tempfile.TemporaryDirectory() as folder:
        nothing = Text(folder, iter([b"{}"]))
        low = least(lambda limit: run(program, "", nothing, limit).status == 2, 0, 1 << 28, 4096)
    print(f"{'text':>30} {'words':>9} {'MB':>7} {'from':>8} {'to MB':>8} {'runs':>5} {'status 6':>8}", flush=True)
    for name, pieces in texts:
        with tempfile.TemporaryDirectory() as folder:
            text = Text(folder, pieces)
            for words in ("link 1", "link 2", "link 256"):
                due = run(program, words, text)
                high = least(lambda limit: run(program, words, text, limit).status == due.status, low, 1 << 36, 4096)
                step = max(4096, (high - low) // 256 & -4096)
                limits = range(low, high + 16 * step, step)
                refused = 0
                for limit in limits:
                    done = run(program, words, text, limit)
                    refused += (done.status, done.written) == (6, 0)
                    if (done.status, done.written) != (6, 0) and (done.status, done.text, done.written) != (due.status, due.text, due.written):
                        wrong.append(f"{name}, {words}, limit {limit}: status {done.status}, {done.written} bytes: {done.text[:80]!r}")
                print(f"{name:>30} {words:>9} {text.size / 1e6:7.2f} {low / 1e6:8.2f} {high / 1e6:8.2f} {len(limits):5} {refused:8}", flush=True)
    return wrong


def main():
    reader = argparse.ArgumentParser(usage=__doc__)
    reader.add_argument("program")
    reader.add_argument("parts", nargs="*", default=PARTS, metavar="PART")
    reader.add_argument("--megabytes", type=float, default=10)
    reader.add_argument("--seconds", type=float, default=10)
    reader.add_argument("--bytes", type=float, default=150)
    reader.add_argument("--nanoseconds", type=float, default=1000)
    given = reader.parse_intermixed_args()
    program, size, wrong = os.path.abspath(given.program), int(given.megabytes * 1e6), []
    if "shapes" in given.parts:
        wrong += run_texts(program, shapes(size), given.seconds, given.bytes)
    if "products" in given.parts:
        wrong += run_products(program, given.nanoseconds)
    if "longest" in given.parts:
        wrong += run_texts(program, longest(), given.seconds, given.bytes)
    if "stack" in given.parts:
        wrong += run_stack(program, size // 10)
    if "limits" in given.parts:
        wrong += run_limits(program, size // 100)
    for line in wrong:
        print(line, file=sys.stderr)
    print(f"{len(wrong)} wrong")
    sys.exit(1 if wrong else 0)


if __name__ == "__main__":
    main()

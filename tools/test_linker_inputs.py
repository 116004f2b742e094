"""Tests of what tools/manifest reads: words, scripts, archives and tables. No compiler is needed."""

import io
import json
import os
import random
import struct
import sys
import tempfile
import unittest

from linker_inputs import archives, elf, linker_script, references, words
from linker_inputs.faults import Fault, Warnings
from linker_inputs.keep import Keep
from linker_inputs.linker_symbols import linker_symbols
from linker_inputs.main import manifest_of, own_words, words_of_compiler
from linker_inputs.names import Names, json_of
from linker_inputs.response_files import expanded, joined, split


def section(name, kind, content=b"", link=0, info=0, entry=0, flags=0):
    """A section as `object_bytes` takes it."""
    return {"name": name, "kind": kind, "content": content, "link": link, "info": info, "entry": entry, "flags": flags}


def object_bytes(symbols, sections=(), kind=elf.RELOCATABLE, order="<", bits=2):
    """An ELF file: the sections given (from 1), then its symbols (name, info, other, section, size), and their names."""
    strings, rows = b"\0", struct.pack(order + "IBBHQQ", 0, 0, 0, 0, 0, 0)
    for name, info, other, place, size in symbols:
        rows += struct.pack(order + "IBBHQQ", len(strings), info, other, place, 0, size)
        strings += name + b"\0"
    count = len(sections)
    table = section(b".symtab", elf.SYMBOL_TABLE, rows, link=count + 2, entry=24)
    parts = [*sections, table, section(b".strtab", elf.STRINGS, strings), section(b".shstrtab", elf.STRINGS)]
    names = b"\0"
    for part in parts:
        part["at"] = len(names)
        names += part["name"] + b"\0"
    parts[-1]["content"] = names
    body, headers = b"", struct.pack(order + "IIQQQQIIQQ", *([0] * 10))
    for part in parts:
        place = (part["at"], part["kind"], part["flags"], 0, 64 + len(body), len(part["content"]))
        headers += struct.pack(order + "IIQQQQIIQQ", *place, part["link"], part["info"], 1, part["entry"])
        body += part["content"]
    start = b"\x7fELF" + bytes([bits, 1 if order == "<" else 2, 1]) + bytes(9)
    fields = (kind, 62, 1, 0, 0, 64 + len(body), 0, 64, 0, 0, 64, count + 4, count + 3)
    return start + struct.pack(order + "HHIQQQIHHHHHH", *fields) + body + headers


def archive_bytes(members, magic=archives.PLAIN):
    """An archive, plain or thin; names that are long stand in a table."""
    long_names, found = b"", b""
    for name, content in members:
        if len(name) > 15:
            name, long_names = b"/%d" % len(long_names), long_names + name + b"/\n"
        else:
            name += b"/"
        found += name.ljust(16) + b" " * 32 + str(len(content)).encode().ljust(10) + b"`\n"
        if magic == archives.PLAIN:
            found += content + b"\n" * (len(content) & 1)
    table = b"//".ljust(48) + str(len(long_names)).encode().ljust(10) + b"`\n" + long_names + b"\n" * (len(long_names) & 1)
    return magic + (table if long_names else b"") + found


def quiet():
    """Warnings that nobody reads."""
    return Warnings(io.StringIO())


def entries(data):
    """The symbols of an object as they stand in a manifest."""
    return [json.loads(entry) for entry in elf.read_elf("a.o", data, quiet()).symbols]


class Tables(unittest.TestCase):
    """Symbol tables: each row is a symbol of an object, and its entry."""

    ROWS = [
        ((b"foo", 0x12, 0, 1, 0), {"name": "foo", "place": 1, "kind": "func"}),
        ((b"foo", 0x10, 0, 0, 0), {"name": "foo", "place": "undefined"}),
        ((b"foo", 0x21, 2, 1, 8), {"name": "foo", "place": 1, "bind": "weak", "vis": "hidden"}),
        ((b"foo", 0xA1, 3, 1, 8), {"name": "foo", "place": 1, "bind": "unique", "vis": "protected"}),
        ((b"foo", 0x16, 1, 0, 0), {"name": "foo", "place": "undefined", "kind": "tls", "vis": "hidden"}),
        ((b"foo", 0x1A, 0, 1, 0), {"name": "foo", "place": 1, "kind": "ifunc"}),
        ((b"foo", 0x11, 0, 0xFFF2, 64), {"name": "foo", "place": "common", "size": 64}),
        ((b"a.c", 0x04, 0, 0xFFF1, 0), {"name": "a.c", "place": "absolute", "bind": "local"}),
        ((b"lost", 0x00, 0, 0, 0), {"name": "lost", "place": "absolute", "bind": "local"}),
        ((b"foo@@V1", 0x12, 0, 1, 0), {"name": "foo", "place": 1, "kind": "func", "version": "V1"}),
        ((b"foo@V1", 0x12, 0, 1, 0), {"name": "foo", "place": 1, "kind": "func", "version": "V1", "default": False}),
        ((b'a"b\\', 0x10, 0, 0, 0), {"name": 'a"b\\', "place": "undefined"}),
        ((b"\xff\x01", 0x10, 0, 0, 0), {"name": {"hex": "ff01"}, "place": "undefined"}),
    ]

    def test_rows(self):
        for order in "<>":
            for symbol, entry in self.ROWS:
                with self.subTest(symbol=symbol, order=order):
                    self.assertEqual(entries(object_bytes([symbol], [section(b".text", 1)], order=order)), [entry])

    def test_groups(self):
        group = section(b".group", elf.GROUP, struct.pack("<III", 1, 2, 3), info=2)
        data = object_bytes([(b"f", 0x22, 0, 2, 0), (b"", 0x03, 0, 2, 0)], [group, section(b".text.f", 1), section(b"steps", 1)])
        table = elf.read_elf("a.o", data, quiet())
        self.assertEqual(table.groups, [{"header": 1, "signature": 2, "comdat": True, "members": [2, 3]}])
        self.assertEqual(json.loads(table.symbols[1])["name"], ".text.f")
        self.assertEqual(table.custom_sections, {b"steps"})

    def test_signatures(self):
        """Each row is the symbol that signs a group of section 2, and the signature that the manifest has."""
        rows = [((b"f", 0x22, 0, 2, 0), "f"), ((b"", 0x03, 0, 2, 0), ".text.f"), ((b"f", 0x03, 0, 2, 0), "f"), ((b"", 0x00, 0, 2, 0), "")]
        for symbol, signature in rows:
            with self.subTest(symbol=symbol):
                group = section(b".group", elf.GROUP, struct.pack("<II", 1, 2), info=1)
                found = entries(object_bytes([symbol], [group, section(b".text.f", 1)]))
                self.assertEqual(found[0]["name"], signature)

    def test_refused(self):
        whole = object_bytes([(b"foo", 0x12, 0, 1, 0)])
        rows = [whole[:40], whole[:-8], object_bytes([], bits=1), object_bytes([], kind=elf.EXECUTABLE), object_bytes([(b"f", 0x12, 0, 0xFF01, 0)])]
        rows += [object_bytes([(b"f", 0x52, 0, 1, 0)]), object_bytes([(b"__gnu_lto_slim", 0x11, 0, 0xFFF2, 1)])]
        for data in rows:
            with self.subTest(size=len(data)), self.assertRaises(Fault):
                elf.read_elf("a.o", data, quiet())

    def test_damaged(self):
        """Whatever bytes an object has, it is read or refused."""
        numbers = random.Random(1)
        group = section(b".group", elf.GROUP, struct.pack("<II", 1, 2), info=1)
        whole = object_bytes([(b"f@V", 0x22, 0, 2, 0)], [group, section(b".text.f", 1)])
        for _ in range(2000):
            data = bytearray(whole)
            for _ in range(numbers.randint(1, 4)):
                data[numbers.randrange(4, len(data))] = numbers.randrange(256)
            try:
                elf.read_elf("a.o", bytes(data), quiet())
            except Fault:
                pass

    def test_names(self):
        self.assertEqual(Names(b"\0ab\0").json(1), '"ab"')
        self.assertEqual(json_of("ä\n".encode()), '"ä\\n"')


def shared_bytes(flags=0):
    """A shared object: foo with its default version V1, old with V2 alone, here for itself, and bar of another file's V1."""
    names = b"\0foo\0old\0V1\0V2\0lib.so.1\0bar\0here\0"
    rows = [(0, 0, 0, 0), (1, 0x12, 0, 1), (5, 0x11, 0, 1), (24, 0x10, 0, 0), (28, 0x12, 0, 1)]
    symbols = b"".join(struct.pack("<IBBHQQ", *row, 0, 0) for row in rows)
    defined = [(1, 15), (2, 9), (3, 12)]
    definitions = b"".join(
        struct.pack("<HHHHIIIII", 1, 0, number, 1, 0, 20, 28 if number < 3 else 0, name, 0) for number, name in defined
    )
    needs = struct.pack("<HHIIIIHHII", 1, 1, 15, 16, 0, 0, 0, 4, 9, 0)
    sections = [section(b".text", 1), section(b".dynstr", elf.STRINGS, names), section(b".dynsym", elf.DYNAMIC_SYMBOLS, symbols, link=2)]
    sections.append(section(b".gnu.version", elf.VERSION_NUMBERS, struct.pack("<5H", 0, 2, 0x8003, 4, 0)))
    sections.append(section(b".gnu.version_d", elf.VERSION_DEFINITIONS, definitions, link=2))
    sections.append(section(b".gnu.version_r", elf.VERSION_NEEDS, needs, link=2))
    sections.append(section(b".dynamic", elf.DYNAMIC, struct.pack("<qQqQqQ", 14, 15, 0x6FFFFFFB, flags, 0, 0), link=2))
    return object_bytes([], sections, elf.SHARED)


class Shared(unittest.TestCase):
    """Shared objects, with versions."""

    def test_versions(self):
        table = elf.read_elf("x.so", shared_bytes(), quiet())
        self.assertEqual((table.dynamic, table.lib_name), (True, b"lib.so.1"))
        expected = [
            {"name": "foo", "place": 1, "kind": "func", "version": "V1"},
            {"name": "old", "place": 1, "version": "V2", "default": False},
            {"name": "bar", "place": "undefined", "version": "V1"},
            {"name": "here", "place": 1, "vis": "hidden", "kind": "func"},
        ]
        self.assertEqual([json.loads(entry) for entry in table.symbols], expected)

    def test_executable(self):
        with self.assertRaises(Fault):
            elf.read_elf("x", shared_bytes(flags=0x08000000), quiet())


CODE, DATA, GROUPED = 0x6, 0x2, 0x200


def relocated(number, symbols, order="<", addends=True):
    """The relocations of a section, which name some symbols."""
    rows = [struct.pack(order + "QQq"[: 4 if addends else 2], *(8 * place, symbol << 32 | 1, 0)[: 3 if addends else 2]) for place, symbol in enumerate(symbols)]
    return section(b".rela", 4 if addends else 9, b"".join(rows), info=number)


def referring(symbols, sections, order="<", stream=None):
    """What an object tells of its sections."""
    data = object_bytes(symbols, sections, order=order)
    return elf.read_elf("a.o", data, Warnings(stream or io.StringIO()), references.Referring).referring


class References(unittest.TestCase):
    """What sections refer to, and which are kept."""

    def test_pairs(self):
        symbols = [(b"", 0x03, 0, 1, 0), (b"f", 0x12, 0, 1, 0), (b"g", 0x10, 0, 0, 0)]
        for order in "<>":
            for addends in (True, False):
                with self.subTest(order=order, addends=addends):
                    sections = [section(b".text.f", 1, flags=CODE), section(b".data", 1, flags=DATA), relocated(2, [3, 0, 1, 3], order, addends)]
                    found = referring(symbols, [*sections, relocated(1, [2], order, addends)], order)
                    self.assertEqual((sorted(found.pairs), found.retained), ([(1, 2), (2, 1), (2, 3)], set()))

    def test_retained(self):
        """Each row is a section, and whether it is kept."""
        rows = [(b".text", 1, CODE, False), (b".init", 1, CODE, True), (b".fini", 1, CODE, True), (b".initial", 1, CODE, False)]
        rows += [(name, 1, DATA, True) for name in (b".init_array.9", b".fini_array", b".preinit_array", b".ctors.1", b".dtors", b".jcr", b".eh_frame")]
        rows += [(b"x", kind, DATA, True) for kind in (7, 14, 15, 16, 0x70000001)]
        rows += [(b"x", 1, DATA | references.RETAIN, True), (b"x", 1, DATA | references.RETAIN | references.EXCLUDE, False)]
        rows += [(b".comment", 1, 0, True), (b".llvm_addrsig", 1, references.EXCLUDE, False), (b".rela.x", 4, 0, False)]
        rows += [(b".bss", 8, DATA, False), (b"steps", 1, DATA, False), (b".jcr", 1, DATA | references.LINK_ORDER, True)]
        for name, kind, flags, kept in rows:
            with self.subTest(name=name, kind=kind, flags=flags):
                self.assertEqual(1 in referring([], [section(name, kind, flags=flags)]).retained, kept)

    def test_groups(self):
        """A note, and what is no memory, is kept with its group, and its references count. Outside of groups those of a note do."""
        group = section(b".group", elf.GROUP, struct.pack("<4I", 1, 2, 3, 4), info=1)
        members = [section(b".text.f", 1, flags=CODE | GROUPED), section(b".note", 7, flags=GROUPED), section(b".debug_f", 1, flags=GROUPED)]
        others = [section(b".note", 7), section(b".debug", 1), *(relocated(number, [1]) for number in (2, 3, 4, 5, 6))]
        found = referring([(b"f", 0x22, 0, 2, 0)], [group, *members, *others])
        self.assertEqual((found.retained, sorted(found.pairs)), ({5, 6}, [(2, 1), (3, 1), (4, 1), (5, 1)]))

    def test_linked(self):
        """A section that lives with another one: by a local symbol in it, or else it is kept, and the other one has its references."""
        for symbol, pairs, retained in (((b"x", 0, 0, 2, 0), [(1, 1), (2, 2)], set()), ((b"x", 0x10, 0, 2, 0), [(1, 2)], {2})):
            with self.subTest(symbol=symbol):
                sections = [section(b".text.f", 1, flags=CODE), section(b".about", 1, link=1, flags=DATA | references.LINK_ORDER), relocated(2, [2])]
                found = referring([symbol, (b"f", 0x10, 0, 0, 0)], sections)
                self.assertEqual((sorted(found.pairs), found.retained), (pairs, retained))

    def test_linked_in_a_group(self):
        """A section that lives with another one in its group isn't kept, since that would keep the group."""
        group = section(b".group", elf.GROUP, struct.pack("<3I", 1, 2, 3), info=1)
        about = section(b".stack_sizes", 1, link=2, flags=references.LINK_ORDER | GROUPED)
        found = referring([(b"f", 0x22, 0, 2, 0)], [group, section(b".text.f", 1, flags=CODE | GROUPED), about, relocated(3, [1])])
        self.assertEqual((sorted(found.pairs), found.retained), ([(3, 1)], set()))

    def test_records(self):
        """Records of .eh_frame refer for their functions: to a table and to a routine. Where they can't be read, the section refers."""
        symbols = [(b"", 3, 0, 1, 0), (b"", 3, 0, 2, 0), (b"table", 0, 0, 3, 0), (b"routine", 0x10, 0, 0, 0)]
        whole = struct.pack("<4I", 12, 0, 0, 0) + struct.pack("<6I", 20, 20, 0, 0, 0, 0) + struct.pack("<6I", 20, 44, 0, 0, 0, 0)
        rows = b"".join(struct.pack("<QQq", place, symbol << 32, 0) for place, symbol in [(48, 2), (32, 3), (24, 1), (8, 4)])
        text = [section(b".text.f", 1, flags=CODE), section(b".text.g", 1, flags=CODE), section(b".gcc_except_table", 1, flags=DATA)]
        read, unread = [(1, 3), (1, 4), (2, 4)], [(4, 1), (4, 2), (4, 3), (4, 4)]
        for content, pairs in ((whole, read), (whole + bytes(4), read), (whole[:-1], unread), (whole[:-8] + b"\xff" * 8, read), (b"\xff" * 4 + whole, unread)):
            with self.subTest(content=content):
                frame = [section(b".eh_frame", 1, content, flags=DATA), section(b".rela.eh_frame", 4, rows, info=4)]
                found = referring(symbols, [*text, *frame])
                self.assertEqual((sorted(found.pairs), found.retained), (pairs, {4}))

    def test_wide(self):
        """Symbols whose sections stand in the table of wide numbers."""
        wide = section(b".symtab_shndx", elf.WIDE_INDEXES, struct.pack("<3I", 0, 1, 2))
        sections = [section(b".text", 1, flags=CODE), section(b".data", 1, flags=DATA), wide]
        found = referring([(b"f", 0x12, 0, elf.WIDE, 0), (b"x", 0, 0, elf.WIDE, 0)], sections)
        self.assertEqual((found.homes, found.definitions, found.locals[2]), ([0, 1, 2], [(b"f", 1, 0)], 2))

    def test_compact(self):
        stream = io.StringIO()
        referring([], [section(b".text", 1, flags=CODE), section(b".crel.text", elf.COMPACT_RELOCATIONS, b"\0", info=1)], stream=stream)
        self.assertIn("SHT_CREL", stream.getvalue())

    def test_damaged(self):
        """Whatever bytes an object has, it is read or refused."""
        numbers = random.Random(2)
        records = struct.pack("<9I", 12, 0, 0, 0, 16, 20, 0, 0, 0)
        sections = [section(b".text.f", 1, flags=CODE), section(b".eh_frame", 1, records, flags=DATA), section(b".x", 1, link=1, flags=references.LINK_ORDER)]
        whole = object_bytes([(b"f", 0x22, 0, 1, 0)], [*sections, relocated(2, [1, 1, 1]), relocated(1, [1], addends=False)])
        for _ in range(2000):
            data = bytearray(whole)
            for _ in range(numbers.randint(1, 4)):
                data[numbers.randrange(4, len(data))] = numbers.randrange(256)
            try:
                elf.read_elf("a.o", bytes(data), quiet(), references.Referring)
            except Fault:
                pass



class Archives(unittest.TestCase):
    """Archives, and the names of their members."""

    def test_members(self):
        data = archive_bytes([(b"a.o", b"abc"), (b"a_long_name_of_an_object.o", b"d")])
        found = [(name, bytes(content)) for name, content in archives.members("x.a", data, None)]
        self.assertEqual(found, [("a.o", b"abc"), ("a_long_name_of_an_object.o", b"d")])

    def test_thin(self):
        data = archive_bytes([(b"a.o", b"abc"), (b"folder/of/a/long/name.o", b"d")], archives.THIN)
        found = list(archives.members("lib/x.a", data, lambda path: path.upper()))
        self.assertEqual(found, [("a.o", "LIB/A.O"), ("folder/of/a/long/name.o", "LIB/FOLDER/OF/A/LONG/NAME.O")])

    def test_refused(self):
        for data in (archive_bytes([(b"a.o", b"abc")])[:-3], archives.PLAIN + b"x" * 60, archives.PLAIN + b"/7".ljust(48) + b"0         `\n"):
            with self.subTest(data=data), self.assertRaises(Fault):
                list(archives.members("x.a", data, None))


class Scripts(unittest.TestCase):
    """Linker scripts: each row is a text, and what is read of it."""

    ROWS = [
        ("/* GNU ld script */\nOUTPUT_FORMAT(elf64-x86-64)\nGROUP ( /lib/libc.so.6 libx.a AS_NEEDED ( -lm, ld.so ) )",
         {"inputs": [("/lib/libc.so.6", False), ("libx.a", False), ("-lm", True), ("ld.so", True)]}),
        ("INPUT(-ltinfo \"a b.o\")", {"inputs": [("-ltinfo", False), ("a b.o", False)]}),
        ("SEARCH_DIR(=/usr/lib); ENTRY(start) EXTERN(a b)", {"search": ["=/usr/lib"], "entry": "start", "undefined": ["a", "b"]}),
        ("foo = bar + SIZEOF(.text); PROVIDE_HIDDEN(end = .);", {"symbols": [("foo", ["bar"], False, False), ("end", [], True, True)]}),
        ("SECTIONS { .text : { first = .; *(.text .text.*) } PROVIDE(last = ALIGN(8) - first); }",
         {"symbols": [("first", [], False, False), ("last", ["first"], False, True)], "lays_out": True}),
        ("VERSION { V1 { global: a; local: *; }; }", {"version": "V1 { global: a; local: *; };"}),
        ("MEMORY { ram : ORIGIN = 0, LENGTH = 4 }", {"symbols": []}),
        ("INCLUDE other.ld", {"includes": ["other.ld"]}),
        ("SECTIONS { .text : { KEEP(*(.text.a)) *(.text) } x = 1; }", {"symbols": [("x", [], False, False)], "lays_out": True}),
    ]  # fmt: skip

    def test_rows(self):
        for text, found in self.ROWS:
            with self.subTest(text=text):
                script = linker_script.read_script("x.ld", text.encode())
                self.assertEqual({key: getattr(script, key) for key in found}, found)

    def test_refused(self):
        for text in (b"hello", b"GROUP ( a.o", b"PROVIDE(7)", b"a\0b"):
            with self.subTest(text=text), self.assertRaises(Fault):
                linker_script.read_script("x.ld", text)


class Keeps(unittest.TestCase):
    """What KEEP names: each row is its text, a file and a section, and whether this is kept."""

    ROWS = [
        ("*(.init)", "a.o", ".init", True),
        ("*(.init)", "a.o", ".init.a", False),
        ("*(.a .b*)", "lib.a(b.o)", ".bc", True),
        ("*(.a /* .b */ .c) /* ) */", "a.o", ".b", False),
        ("*(SORT_NONE(.init))", "a.o", ".init", True),
        ("*(SORT_BY_NAME(SORT_BY_ALIGNMENT(.a*)) .b)", "a.o", ".ab", True),
        ("*crtbegin.o(.ctors)", "/lib/crtbegin.o", ".ctors", True),
        ("*crtbegin.o(.ctors)", "/lib/crtend.o", ".ctors", False),
        ("*(EXCLUDE_FILE (*crtend.o *crtend?.o) .ctors .dtors)", "/lib/crtend.o", ".ctors", False),
        ("*(EXCLUDE_FILE (*crtend.o *crtend?.o) .ctors .dtors)", "/lib/crtend.o", ".dtors", True),
        ("*(EXCLUDE_FILE (*crtend.o) .ctors)", "a.o", ".ctors", True),
        ("EXCLUDE_FILE(b.o) *(.a .b)", "b.o", ".b", False),
        ("EXCLUDE_FILE(b.o) *(.a .b)", "lib.a(b.o)", ".b", False),
        ("INPUT_SECTION_FLAGS(SHF_ALLOC) *(.a)", "b.o", ".a", True),
        ("a.o", "a.o", ".x", True),
        ("lib.a:b.o(.a)", "lib.a(b.o)", ".a", True),
        ("lib.a:(.a)", "lib.a(c.o)", ".a", True),
        (":a.o(.a)", "lib.a(a.o)", ".a", False),
        (":a.o(.a)", "a.o", ".a", True),
        ("b.o(.a)", "lib.a(b.o)", ".a", True),
        ("*(.a", "a.o", ".a", False),
        ("", "a.o", ".a", False),
    ]

    def test_rows(self):
        for text, file, name, kept in self.ROWS:
            with self.subTest(text=text, file=file):
                self.assertEqual(Keep(text).matches(file, name), kept)
                script = f"SECTIONS {{ .x : {{ KEEP({text}) }} }}"
                if text.count("(") == text.count(")"):
                    keeps = linker_script.read_script("x.ld", script.encode()).keeps
                    self.assertEqual([keep.matches(file, name) for keep in keeps], [kept])

    def test_excluded(self):
        self.assertTrue(Keep("*(EXCLUDE_FILE(a.o) .a)").matches("a.o", ".a", excludes=False))


class Words(unittest.TestCase):
    """A linker's words: each row is some words, and what they ask for."""

    ROWS = [
        ("-o out -m elf_x86_64 -plugin p -plugin-opt=-pass-through=-lc --hash-style=gnu -z relro -O1 a.o", {"inputs": [("file", "a.o")]}),
        ("-L=/lib -L dir -lz -l:x.a --library=y -T s.ld", {"search": ["=/lib", "dir"], "inputs": [("library", "z"), ("library", ":x.a"), ("library", "y"), ("script", "s.ld")]}),
        ("-e start -u a -ub --undefined=c --wrap=w --wrap x", {"entry": "start", "force_undefined": ["a", "b", "c"], "wrap": ["w", "x"]}),
        ("-e 0x400", {"entry": ""}),
        ("--require-defined=a --require-defined b", {"force_undefined": ["a", "b"]}),
        ("--defsym=a=b+4 --defsym c=0x10", {"defsym": [("a", ["b"]), ("c", [])]}),
        ("-shared -soname=x -h y -Bsymbolic", {"output": "shared", "soname": "y"}),
        ("-hx --soname y -soname=z", {"soname": "z"}),
        ("-r -d", {"output": "partial"}),
        ("-static -pie --no-dynamic-linker", {"static": True, "position_independent": True, "no_interpreter": True}),
        ("--gc-sections", {"collects": True, "exports_all": False, "keeps_exported": False, "drops_named_sections": False}),
        ("--gc-sections --print-gc-sections --no-gc-sections", {"collects": False}),
        ("--no-gc-sections -gc-sections", {"collects": True}),
        ("-E -z start-stop-gc --gc-keep-exported", {"exports_all": True, "drops_named_sections": True, "keeps_exported": True}),
        ("-export-dynamic --no-export-dynamic -zstart-stop-gc -z nostart-stop-gc", {"exports_all": False, "drops_named_sections": False}),
        ("-init begin -fini=finish", {"first_call": "begin", "last_call": "finish"}),
        ("-pie -no-pie -z muldefs --export-dynamic-symbol=a*", {"position_independent": False, "allow_multiple": True, "force_export": ["a*"]}),
    ]  # fmt: skip

    def test_rows(self):
        for line, found in self.ROWS:
            with self.subTest(line=line):
                command = words.read_words(line.split(), quiet())
                command.inputs = [(kind, name) for kind, name, _ in command.inputs]
                self.assertEqual({key: getattr(command, key) for key in found}, found)

    def test_states(self):
        line = "a --as-needed b --push-state --no-as-needed -Bstatic c --pop-state d --whole-archive e --no-whole-archive --start-lib f --end-lib g"
        found = [(name, state.as_needed, state.shared, state.whole_archive, state.lazy) for _, name, state in words.read_words(line.split(), quiet()).inputs]
        expected = [("a", 0, 1, 0, 0), ("b", 1, 1, 0, 0), ("c", 0, 0, 0, 0), ("d", 1, 1, 0, 0), ("e", 1, 1, 1, 0), ("f", 1, 1, 0, 1), ("g", 1, 1, 0, 0)]
        self.assertEqual(found, expected)

    def test_warnings(self):
        stream = io.StringIO()
        words.read_words("-Bsymbolic -Bsymbolic --no-such-word a.o --gc-sections --require-defined=f".split(), Warnings(stream))
        told = stream.getvalue().splitlines()
        self.assertEqual([line.split(":")[1].strip() for line in told], ["-Bsymbolic", "--no-such-word", "--require-defined f"])

    def test_collects(self):
        """As if --gc-sections stood before the words."""
        for line, collects in (("a.o", True), ("--no-gc-sections a.o", False)):
            self.assertEqual(words.read_words(line.split(), quiet(), True).collects, collects)

    def test_refused(self):
        for line in ("-u", "--defsym=a", "--version-script=no/such/file", "-b binary"):
            with self.subTest(line=line), self.assertRaises(Fault):
                words.read_words(line.split(), quiet())


class InFolder(unittest.TestCase):
    """Tests with files in a folder of their own."""

    def setUp(self):
        self.folder = tempfile.TemporaryDirectory()
        self.before = os.getcwd()
        os.chdir(self.folder.name)

    def tearDown(self):
        os.chdir(self.before)
        self.folder.cleanup()

    def write(self, files):
        for name, data in files.items():
            with open(name, "wb") as file:
                file.write(data)


# A compiler that tells its words as those of a linker, as GCC's and clang's drivers quote them. It refuses response files.
COMPILER = f"""#!{sys.executable}
import os, sys
assert sys.argv.pop() == "-###" and "@libs.rsp" not in sys.argv
quoted = ["".join("\\\\" * (letter in '"$\\\\') + letter for letter in word) for word in sys.argv[1:]]
os.write(2, os.fsencode("some compiler\\n /usr/bin/ld " + " ".join(f'"{{word}}"' for word in quoted) + "\\n"))
"""
# A compiler that hands words of a response file on in another one, which it keeps only where it is told to, as GCC's driver does.
DRIVER = f"""#!{sys.executable}
import os, sys
assert sys.argv[1].startswith("@") and len(sys.argv) < 8
name = (sys.argv[4] if "-save-temps" in sys.argv else "no/such/folder/") + "args.0"
if "-save-temps" in sys.argv:
    os.link(sys.argv[1][1:], name)
print(f' ld "@{{name}}"', file=sys.stderr)
"""


class ResponseFiles(InFolder):
    """Response files: each row is a text, and the words that it holds."""

    ROWS = [
        (" a.o\n-lz\t\r\n b.o ", ["a.o", "-lz", "b.o"]),
        ("", []),
        ("'a b.o' \"c d.o\" e\\ f.o", ["a b.o", "c d.o", "e f.o"]),
        ("-L'a b'/c \"\" ''", ["-La b/c", "", ""]),
        ("\"a\\\"b\" 'a\\'b' \\\"a a\\\\b \"a\\$b\"", ['a"b', "a'b", '"a', "a\\b", "a$b"]),
        ("\"a'b\" 'a\"b'", ["a'b", 'a"b']),
        ("'a b", ["a b"]),
        ("a\\\nb a\u00a0b", ["a\nb", "a\u00a0b"]),
    ]

    def test_rows(self):
        for text, found in self.ROWS:
            with self.subTest(text=text):
                self.assertEqual(split(text), found)
                self.assertEqual(split(joined(found)), found)

    def test_expanded(self):
        self.write({"out.rsp": b"a @in.rsp @no/such/file b\0c", "in.rsp": b"'-u x' @empty", "empty": b" \n", "loop": b"x @loop"})
        self.assertEqual(list(expanded(["@out.rsp", "@", "d"])), ["a", "-u x", "@no/such/file", "b", "@", "d"])
        with self.assertRaises(Fault):
            list(expanded(["@loop"]))

    def test_compiler(self):
        odd = ["main.o", "a b.o", "-u", 'x"$y\\z', "@no/such/file", "\u00e9\udcff"]
        self.write({"cc": COMPILER.encode(), "libs.rsp": os.fsencode(joined(odd[1:]))})
        os.chmod("cc", 0o755)
        self.assertEqual(words_of_compiler(["./cc", "main.o", "@libs.rsp"]), odd)
        for line in ([], ["./no-such-cc", "main.o"], ["./libs.rsp"]):
            with self.subTest(line=line), self.assertRaises(Fault):
                words_of_compiler(line)

    def test_source(self):
        """A compiler that would compile first gives the linker an object that isn't there."""
        self.write({"cc": b"#!/bin/sh\nprintf ' cc1 a.c\\n collect2 a.o\\n' >&2\n"})
        os.chmod("cc", 0o755)
        with self.assertRaisesRegex(Fault, "cc: would compile a source first"):
            words_of_compiler(["./cc", "a.c"])

    def test_long(self):
        """Words that are too many for a command reach the compiler in a file, and come back in the one that it keeps."""
        many = [f"{number:099}" for number in range(70000)]
        self.write({"cc": DRIVER.encode(), "many.rsp": joined(many).encode()})
        os.chmod("cc", 0o755)
        self.assertEqual(words_of_compiler(["./cc", "@many.rsp"]), many)


class Whole(InFolder):
    """Whole manifests, of files in a folder."""

    def setUp(self):
        super().setUp()
        files = {"main.o": object_bytes([(b"foo", 0x10, 0, 0, 0), (b"_end", 0x10, 0, 0, 0)]), "foo.o": object_bytes([(b"foo", 0x12, 0, 1, 0)])}
        files["libfoo.a"] = archive_bytes([(b"foo.o", files["foo.o"]), (b"notes", b"text")])
        files["libbar.so"] = b"INPUT(libfoo.a)"
        files["words"] = b"main.o '-L.' -lbar"
        files |= {"x.so": shared_bytes(), "one.ld": b"x = 1; INPUT(foo.o)", "two.ld": b"INPUT(foo.o ./foo.o)", "self.ld": b"INPUT(./self.ld)"}
        files["needed.ld"] = b"INPUT(AS_NEEDED(x.so))"
        self.write(files)
        os.symlink("foo.o", "link.o")

    def manifest(self, line):
        return json.loads(manifest_of(line.split(), quiet()))

    def test_archive(self):
        found = self.manifest("@words -lbar libfoo.a")
        self.assertEqual([entry["name"] for entry in found["objects"]], ["main.o", "libfoo.a(foo.o)"])
        self.assertEqual([entry.get("archive") for entry in found["objects"]], [None, True])
        self.assertEqual((found["output"], found["default_entry"]), ("static", "_start"))
        self.assertEqual([entry["name"] for entry in found["linker_symbols"]], ["_end"])

    def test_outputs(self):
        rows = {"-shared": "shared", "-r": "partial", "-pie": "dynamic", "-static -pie": "static", "": "static"}
        for line, output in rows.items():
            with self.subTest(line=line):
                self.assertEqual(self.manifest(line + " main.o")["output"], output)

    def test_members(self):
        found = self.manifest("--whole-archive libfoo.a --start-lib main.o --end-lib")
        self.assertEqual([entry.get("whole_archive", False) for entry in found["objects"]], [True, True])
        self.assertEqual([entry["archive"] for entry in found["objects"]], [True, True])

    def test_twice(self):
        """Each row is some words, and the files behind main.o: objects count as often as they are named, others once."""
        rows = {
            "foo.o foo.o": ["foo.o", "foo.o"],
            "foo.o ./foo.o link.o": ["foo.o", "./foo.o", "link.o"],
            "foo.o -L. -l:foo.o": ["foo.o", "./foo.o"],
            "-r foo.o foo.o": ["foo.o", "foo.o"],
            "--start-lib foo.o foo.o --end-lib foo.o": ["foo.o", "foo.o", "foo.o"],
            "two.ld": ["foo.o", "foo.o"],
            "one.ld ./one.ld": ["foo.o", "foo.o"],
            "foo.o one.ld": ["foo.o", "foo.o"],
            "libfoo.a ./libfoo.a": ["libfoo.a(foo.o)"],
            "--whole-archive libfoo.a libfoo.a": ["libfoo.a(foo.o)"],
            "x.so ./x.so": ["x.so"],
        }
        for line, names in rows.items():
            with self.subTest(line=line):
                found = self.manifest("main.o " + line)
                self.assertEqual([entry["name"] for entry in found["objects"]], ["main.o", *names])
                self.assertEqual([script["name"] for script in found.get("scripts", [])], ["one.ld"] if "one" in line else [])

    def test_again(self):
        """Each row is some words, and whether what stands there twice is whole, or as needed."""
        rows = {
            "libfoo.a --whole-archive libfoo.a": "whole_archive",
            "--whole-archive libfoo.a --no-whole-archive libfoo.a": "whole_archive",
            "--as-needed x.so x.so": "as_needed",
            "--as-needed x.so --no-as-needed x.so": None,
            "x.so --as-needed x.so": None,
            "needed.ld needed.ld": "as_needed",
            "needed.ld x.so": None,
        }
        for line, mark in rows.items():
            with self.subTest(line=line):
                found = self.manifest("main.o " + line)["objects"][1]
                self.assertEqual([key for key in ("whole_archive", "as_needed") if key in found], [mark] if mark else [])

    def test_refused(self):
        for line in ("", "no.o", "-lnone main.o", "words", "--no-such-word", "main.o @no/such/file", "main.o self.ld"):
            with self.subTest(line=line), self.assertRaises(Fault):
                self.manifest(line)

    def test_linker_symbols(self):
        names = {"_DYNAMIC", "__rela_iplt_start", "_end"}
        found = {kind: [entry["name"] for entry in linker_symbols(*kind, names)] for kind in (("static", False), ("static", True), ("shared", True), ("partial", False))}
        expected = [["_end", "__rela_iplt_start"], ["_end", "_DYNAMIC"], ["_end", "_DYNAMIC"], []]
        self.assertEqual(list(found.values()), expected)

    def test_static_pie(self):
        """The ends of a table of relocations, which GNU ld defines only where an executable has a fixed place."""
        names = ["__rela_iplt_start", "__rela_iplt_end"]
        self.write({"ends.o": object_bytes([(name.encode(), 0x20, 2, 0, 0) for name in names])})
        for line, defined in {"-static": names, "": names, "-static -pie --no-dynamic-linker -z text": [], "-pie": [], "-shared": []}.items():
            with self.subTest(line=line):
                found = self.manifest(line + " ends.o").get("linker_symbols", [])
                self.assertEqual([entry["name"] for entry in found], defined)


class Collected(InFolder):
    """Whole manifests with --gc-sections: each row is some words, and the sections of an object that are kept."""

    def setUp(self):
        super().setUp()
        sections = [section(b".text.f", 1, flags=CODE), section(b".text.g", 1, flags=CODE), section(b"steps", 1, flags=DATA)]
        mine = object_bytes([(b"f", 0x12, 0, 1, 0), (b"g", 0x12, 0, 2, 0), (b"inner", 0x11, 2, 3, 0)], [*sections, relocated(1, [2, 2])])
        others = object_bytes([(b"foo", 0x12, 0, 1, 0), (b"bar", 0x12, 2, 2, 0), (b"here", 0x12, 0, 3, 0)], sections)
        files = {"a.o": mine, "b.o": others, "asks.o": object_bytes([(b"__start_steps", 0x10, 0, 0, 0)]), "x.so": shared_bytes()}
        files |= {"list": b'{ g; "f*"; extern "C++" { f; }; /* f; */ };', "more": b'{ extern "C" { f; }; g?; };'}
        self.write(files | {"keep.ld": b"SECTIONS { .text : { KEEP(*a.o(.text.[g-h] .symtab)) } }"})

    def found(self, line, collects=False):
        """What a manifest says of the sections of its first object."""
        entry = json.loads(manifest_of(line.split(), quiet(), False, collects))["objects"][0]
        return entry.get("section_refs"), entry.get("retain")

    def test_keys(self):
        """The keys stand where --gc-sections is in force."""
        told = [{"from": 1, "to": 2}], []
        rows = [("a.o", False, (None, None)), ("a.o --gc-sections", False, told), ("--gc-sections a.o --no-gc-sections", False, (None, None))]
        rows += [("a.o", True, told), ("--no-gc-sections a.o", True, (None, None))]
        for line, collects, found in rows:
            with self.subTest(line=line, collects=collects):
                self.assertEqual(self.found(line, collects), found)

    def test_retained(self):
        rows = [("a.o asks.o", [3]), ("a.o asks.o -z start-stop-gc", []), ("a.o asks.o -r", []), ("a.o --start-lib asks.o", [3]), ("a.o keep.ld", [2])]
        rows += [("a.o -E", []), ("a.o -E -pie", [1, 2]), ("a.o --gc-keep-exported", [1, 2]), ("a.o -init g -fini=inner", [2, 3])]
        rows += [("a.o -pie --dynamic-list=list", [2]), ("a.o -pie --dynamic-list=more", [1]), ("a.o --dynamic-list=list", [])]
        rows += [("a.o -pie --export-dynamic-symbol=[g-z] --export-dynamic-symbol inner", [2])]
        rows += [("b.o x.so", [1]), ("b.o x.so -shared", []), ("b.o", [])]
        for line, retained in rows:
            with self.subTest(line=line):
                self.assertEqual(self.found(line, True)[1], retained)

    def test_own_words(self):
        self.assertEqual(own_words("--gc-sections --lenient-scripts a.o --gc-sections".split()), (["--gc-sections", "--lenient-scripts"], ["a.o", "--gc-sections"]))


if __name__ == "__main__":
    unittest.main()

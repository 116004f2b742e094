"""The symbol tables of ELF files of 64 bits, as the entries of a manifest's objects.

Tables are gone through by `struct.iter_unpack`, and an entry is put together as text at once: a link of a million symbols
is to be told in seconds.
"""

import re
import struct

from .faults import Fault
from .linker_symbols import NAMES
from .names import Names, json_of

MAGIC = b"\x7fELF"
RELOCATABLE, EXECUTABLE, SHARED = 1, 2, 3
SYMBOL_TABLE, STRINGS, NO_BITS, DYNAMIC_SYMBOLS, GROUP, WIDE_INDEXES = 2, 3, 8, 11, 17, 18
DYNAMIC, VERSION_DEFINITIONS, VERSION_NEEDS, VERSION_NUMBERS = 6, 0x6FFFFFFD, 0x6FFFFFFE, 0x6FFFFFFF
COMPACT_RELOCATIONS = 0x40000014
# Types of sections that bring nothing into an output by themselves: none, symbols, strings, relocations, groups.
WITHOUT_OUTPUT = {0, 2, 3, 4, 9, 17, 18, COMPACT_RELOCATIONS}
IS_HIDDEN_VERSION = 0x8000

BINDS = {0: ',"bind":"local"', 1: "", 2: ',"bind":"weak"', 10: ',"bind":"unique"'}
VISIBILITIES = {0: "", 1: ',"vis":"hidden"', 2: ',"vis":"hidden"', 3: ',"vis":"protected"'}
# The type of a symbol that stands for its section.
SECTION_SYMBOL = 3
KINDS = {2: ',"kind":"func"', 6: ',"kind":"tls"', 10: ',"kind":"ifunc"'}
# Reserved section numbers; 0xff02 is the large common block of x86-64.
UNDEFINED, LARGE_COMMON, ABSOLUTE, COMMON, WIDE = 0, 0xFF02, 0xFFF1, 0xFFF2, 0xFFFF
PLACES = {UNDEFINED: '"undefined"', ABSOLUTE: '"absolute"', COMMON: '"common"', LARGE_COMMON: '"common"'}
FIRST_RESERVED = 0xFF00
# The names of a linker's own symbols, as they stand in entries.
OWN_NAMES = {json_of(name.encode()): name for name in NAMES}
IDENTIFIER = re.compile(rb"[A-Za-z_][A-Za-z0-9_]*\Z")


class Table:
    """What a manifest tells of one file: its sections, symbols and groups. Symbols are JSON texts, without the null entry."""

    def __init__(self, file, dynamic):
        self.name = file.name
        self.dynamic = dynamic
        self.lib_name = None
        self.sections = len(file.sections)
        self.symbols = []
        self.groups = []
        self.custom_sections = set()
        self.asked = set()  # of the names that a linker itself defines, those that this file asks for
        self.defined = set()  # and those that it defines
        self.referring = None  # what `--gc-sections` asks of an object


class ElfFile:
    """The headers of a file: its type, its machine and its sections."""

    def __init__(self, name, data):
        self.name = name
        self.data = memoryview(data)
        if len(data) < 64:
            raise Fault(name, "is cut short")
        if data[4] != 2:
            raise Fault(name, "is an ELF file of 32 bits")
        if data[5] not in (1, 2):
            raise Fault(name, "has an unknown order of bytes")
        self.order = "<" if data[5] == 1 else ">"
        fields = struct.unpack_from(self.order + "HHIQQQIHHHHHH", data, 16)
        self.type, self.machine = fields[0], fields[1]
        self.sections = self.read_sections(fields[5], fields[11])
        names_at = fields[12]
        if names_at == WIDE:
            names_at = self.sections[0][6]
        self.section_names = Names(self.bytes_of(names_at) if self.sections and names_at else b"\0")

    def read_sections(self, start, count):
        """The section headers: name, type, flags, address, offset, size, link, info, alignment, size of an entry."""
        if start == 0:
            return []
        layout = self.order + "IIQQQQIIQQ"
        if count == 0:
            count = struct.unpack_from(layout, self.data, start)[5]
        if start + count * 64 > len(self.data):
            raise Fault(self.name, "is cut short")
        return list(struct.iter_unpack(layout, self.data[start : start + count * 64]))

    def bytes_of(self, number):
        """What a section holds."""
        _, kind, _, _, start, size = self.sections[number][:6]
        if kind == NO_BITS:
            return self.data[0:0]
        if start + size > len(self.data):
            raise Fault(self.name, f"is cut short in section {number}")
        return self.data[start : start + size]

    def first_of(self, kind):
        """The number of the first section of a type, or None."""
        return next((number for number, section in enumerate(self.sections) if section[1] == kind), None)

    def words(self, letter, data):
        """Some bytes as numbers of one size."""
        return struct.unpack(f"{self.order}{len(data) // struct.calcsize(letter)}{letter}", data)


def read_elf(name, data, warnings, read_more=None):
    """The table of a relocatable or a shared file. Of a relocatable one `read_more` tells what its sections refer to."""
    try:
        file = ElfFile(name, data)
        if file.type == RELOCATABLE:
            table = regular_table(file, warnings)
            table.referring = read_more and read_more(file, table.groups, warnings)
            return table
        if file.type == SHARED:
            return shared_table(file)
    except (struct.error, ValueError, IndexError):
        raise Fault(name, "has tables that can't be read") from None
    raise Fault(name, "is an executable" if file.type == EXECUTABLE else f"is an ELF file of type {file.type}")


def suffix_of(file, info, other, number):
    """What an entry says beyond its name and place, by its binding and type and by its visibility."""
    bind, kind = BINDS.get(info >> 4), info & 15
    if bind is None:
        raise Fault(file.name, f"symbol {number} has the unknown binding {info >> 4}")
    return bind + VISIBILITIES[other & 3] + KINDS.get(kind, "")


def place_of(file, section, number):
    """The place of a section number that isn't a usual one."""
    if section >= FIRST_RESERVED:
        raise Fault(file.name, f"symbol {number} has the reserved section number {section:#x}")
    return str(section)


def regular_table(file, warnings):
    """The table of an object: every symbol of `.symtab` but the null entry, so that numbers stay as they are."""
    table = Table(file, False)
    number = file.first_of(SYMBOL_TABLE)
    if number is not None:
        names = Names(file.bytes_of(file.sections[number][6]))
        wide = file.first_of(WIDE_INDEXES)
        wide = file.words("I", file.bytes_of(wide)) if wide is not None else None
        table.symbols, lost = regular_symbols(file, table, file.bytes_of(number), names, wide)
        if lost:
            warnings.tell(file.name, f"{lost} local symbols without a place are told as absolute")
        if "\0__gnu_lto_slim\0" in names.text:
            raise Fault(file.name, "holds intermediate code of a compiler, which only its plugin reads")
    read_groups(file, table)
    read_custom_sections(file, table, warnings)
    return table


def regular_symbols(file, table, data, names, wide):
    """The entries of a symbol table, and how many local ones had no place."""
    entries, suffixes, lost = [], {}, 0
    places, name_of, has_versions = dict(PLACES), names.json, names.has_versions
    for name_at, info, other, section, _, size in struct.iter_unpack(file.order + "IBBHQQ", data):
        suffix = suffixes.get((info, other))
        if suffix is None:
            suffix = suffixes[info, other] = suffix_of(file, info, other, len(entries))
        if section == WIDE and wide is not None:
            place = str(wide[len(entries)])
        else:
            place = places.get(section)
            if place is None:
                place = places[section] = place_of(file, section, len(entries))
        if section == UNDEFINED and info >> 4 == 0 and entries:
            # What a partial link leaves of a local symbol of a discarded section.
            place = PLACES[ABSOLUTE]
            lost += 1
        elif section in (COMMON, LARGE_COMMON):
            suffix += f',"size":{size}'
        name = name_of(name_at)
        if name in OWN_NAMES and info >> 4:
            (table.asked if section == UNDEFINED else table.defined).add(OWN_NAMES[name])
        if has_versions and "@" in name:
            name, version = split_version(names.bytes(name_at))
            suffix += version
        entries.append('{"name":' + name + ',"place":' + place + suffix + "}")
    # The null entry, which the program puts in.
    return entries[1:], lost


def split_version(name):
    """A name `foo@V` or `foo@@V` as the plain name in JSON and the rest of its entry."""
    plain, mark, version = name.partition(b"@")
    if not plain or not mark:
        return json_of(name), ""
    is_default = version.startswith(b"@")
    return json_of(plain), version_suffix(json_of(version.lstrip(b"@")), is_default)


def version_suffix(version, is_default):
    """A version, and that the symbol doesn't stand for its plain name, where it doesn't."""
    return f',"version":{version}' + ("" if is_default else ',"default":false')


def read_groups(file, table):
    """The section groups. GNU ld, gold and mold name a group that a section's symbol signs by that section; so does the table."""
    for header, section in enumerate(file.sections):
        if section[1] != GROUP:
            continue
        flags, *members = file.words("I", file.bytes_of(header))
        signature = section[7]
        table.groups.append({"header": header, "signature": signature, "comdat": flags & 1 == 1, "members": members})
        if 0 < signature <= len(table.symbols):
            name_section_symbol(file, table, signature - 1)


def name_section_symbol(file, table, at):
    """Gives an entry without a name that is a section's symbol the section's name."""
    entry = table.symbols[at]
    place = re.match(r'\{"name":"","place":(\d+)', entry)
    symbols = file.bytes_of(file.first_of(SYMBOL_TABLE)) if place else b""
    if place and symbols[(at + 1) * 24 + 4] & 15 == SECTION_SYMBOL:
        name = file.section_names.json(file.sections[int(place[1])][0])
        table.symbols[at] = entry.replace('""', name, 1)


def read_custom_sections(file, table, warnings):
    """The sections whose names are identifiers of C: a linker defines where the output's section of that name begins and ends."""
    names = file.section_names
    for place in {section[0] for section in file.sections if section[1] not in WITHOUT_OUTPUT}:
        if names.table[place] == ord("."):
            if names.table.startswith(b".gnu.linkonce.", place):
                warnings.tell(file.name, "a .gnu.linkonce section is no section group, and always kept")
            continue
        name = names.bytes(place)
        if IDENTIFIER.match(name):
            table.custom_sections.add(name)


def shared_table(file):
    """The table of a shared object: the symbols of `.dynsym`, with their versions."""
    table = Table(file, True)
    read_dynamic(file, table)
    number = file.first_of(DYNAMIC_SYMBOLS)
    if number is None:
        raise Fault(file.name, "has no table of dynamic symbols")
    names = Names(file.bytes_of(file.sections[number][6]))
    data = file.bytes_of(number)
    numbers = file.first_of(VERSION_NUMBERS)
    numbers = file.words("H", file.bytes_of(numbers)) if numbers is not None else (1,) * (len(data) // 24)
    table.symbols = shared_symbols(file, data, names, numbers, version_names(file))
    table.asked = {name for name in NAMES if f"{name}\0" in names.text}
    return table


def read_dynamic(file, table):
    """The name by which programs ask for a shared object at run time; a program that may stand anywhere is no input."""
    number = file.first_of(DYNAMIC)
    if number is None:
        return
    for tag, value in struct.iter_unpack(file.order + "qQ", file.bytes_of(number)):
        if tag == 14:
            table.lib_name = Names(file.bytes_of(file.sections[number][6])).bytes(value)
        elif tag == 0x6FFFFFFB and value & 0x08000000:
            raise Fault(file.name, "is an executable")
        elif tag == 0:
            break


def shared_symbols(file, data, names, numbers, versions):
    """The entries of a dynamic symbol table."""
    entries = []
    for name_at, info, other, section, _, _ in struct.iter_unpack(file.order + "IBBHQQ", data):
        number = numbers[len(entries)]
        version = number & ~IS_HIDDEN_VERSION
        place = PLACES.get(section) or place_of(file, section, len(entries))
        if version == 0 and section != UNDEFINED:
            # Local by its version: no other file sees it.
            other = 2
        suffix = suffix_of(file, info, other, len(entries))
        if version > 1:
            if version not in versions:
                raise Fault(file.name, f"symbol {len(entries)} has the unknown version {version}")
            suffix += version_suffix(versions[version], number < IS_HIDDEN_VERSION)
        elif number > IS_HIDDEN_VERSION and section != UNDEFINED:
            # Of the base version, and not for its plain name.
            suffix += version_suffix('""', False)
        if section == COMMON:
            # A shared object has placed its commons; none is left to be merged.
            place = PLACES[ABSOLUTE]
        entries.append('{"name":' + names.json(name_at) + ',"place":' + place + suffix + "}")
    return entries[1:]


def version_names(file):
    """The names of versions, as JSON, by their numbers: those that the file defines and those that it asks for."""
    found = {}
    for kind in (VERSION_DEFINITIONS, VERSION_NEEDS):
        number = file.first_of(kind)
        if number is None:
            continue
        data = file.bytes_of(number)
        names = Names(file.bytes_of(file.sections[number][6]))
        read = defined_versions if kind == VERSION_DEFINITIONS else needed_versions
        for version, name_at in read(file, data):
            found[version] = names.json(name_at)
    return found


def defined_versions(file, data):
    """The number of each version that a file defines, and where its name stands."""
    place = 0
    while True:
        _, _, version, _, _, names_at, following = struct.unpack_from(file.order + "HHHHIII", data, place)
        yield version, struct.unpack_from(file.order + "I", data, place + names_at)[0]
        if following == 0:
            return
        place += following


def needed_versions(file, data):
    """The number of each version that a file asks for, and where its name stands."""
    place = 0
    while True:
        _, count, _, first, following = struct.unpack_from(file.order + "HHIII", data, place)
        at = place + first
        for _ in range(count):
            _, _, version, name_at, step = struct.unpack_from(file.order + "IHHII", data, at)
            yield version & ~IS_HIDDEN_VERSION, name_at
            at += step
        if following == 0:
            return
        place += following

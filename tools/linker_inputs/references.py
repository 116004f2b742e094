"""What `--gc-sections` asks of an object: what its sections refer to, and which of them are kept whatever refers to them.

A section refers to the symbols that its relocations name. Two kinds of sections have their references told as those of
others: records of `.eh_frame` refer for the function that they describe, and a section with `SHF_LINK_ORDER`, which lives
with another one, refers for that one where it has no symbol by which that one could refer to it. What describes a program
to debuggers and the like is kept, and refers to nothing.
"""

import bisect
import struct

from .elf import COMPACT_RELOCATIONS, FIRST_RESERVED, SYMBOL_TABLE, WIDE, WIDE_INDEXES, WITHOUT_OUTPUT
from .names import Names

# Types of sections: notes, and what describes functions to those who unwind the stack, by the ABI of x86-64.
NOTE, UNWIND = 7, 0x70000001
# The types of relocations with an addend and without, and of how many words of 8 bytes they are.
RELOCATIONS = {4: 3, 9: 2}
CALLED = {14, 15, 16}  # arrays of functions that are called first and last
# Flags of sections.
ALLOCATED, LINK_ORDER, RETAIN, EXCLUDE = 0x2, 0x80, 0x200000, 0x80000000
CALLED_NAMES = (b".init_array", b".fini_array", b".preinit_array", b".ctors", b".dtors")
KEPT_NAMES = {b".init", b".fini", b".jcr", b".eh_frame"}


class Referring:
    """What an object tells of its sections."""

    def __init__(self, file, groups, warnings):
        self.file = file
        self.with_output = [section[1] not in WITHOUT_OUTPUT and not section[2] & EXCLUDE for section in file.sections]
        self.names = [file.section_names.bytes(section[0]) if told else b"" for section, told in zip(file.sections, self.with_output)]
        self.in_groups = {member for group in groups for member in group["members"]}
        self.homes, self.locals, self.definitions, self.undefined = [], {}, [], set()
        self.read_symbols()
        self.pairs = set()  # a section, and a symbol that it refers to
        self.retained = {number for number in range(len(file.sections)) if self.is_retained(number)}
        owners = self.read_link_order()
        self.read_relocations(owners, warnings)
        # The headers of a file take more room than what is told of it.
        self.file = None

    def read_symbols(self):
        """The section of each symbol, a local symbol of each section that has one, what is defined for others, and what is asked for."""
        file, number = self.file, self.file.first_of(SYMBOL_TABLE)
        if number is None:
            return
        names = Names(file.bytes_of(file.sections[number][6]))
        wide = file.first_of(WIDE_INDEXES)
        wide = file.words("I", file.bytes_of(wide)) if wide is not None else None
        for name_at, info, other, section, _, _ in struct.iter_unpack(file.order + "IBBHQQ", file.bytes_of(number)):
            if section == WIDE and wide is not None:
                section = wide[len(self.homes)]
            elif section >= FIRST_RESERVED:
                section = 0
                info = 0  # it has no home, and asks for nothing
            if info >> 4 == 0:
                self.locals.setdefault(section, len(self.homes))
            elif section:
                self.definitions.append((names.bytes(name_at).partition(b"@")[0], section, other & 3))
            else:
                self.undefined.add(names.bytes(name_at).partition(b"@")[0])
            self.homes.append(section)

    def is_retained(self, number):
        """Whether a section is kept whatever the rest of the link is, as GNU ld and lld keep it."""
        kind, flags = self.file.sections[number][1:3]
        name = self.names[number]
        if not self.with_output[number]:
            return False
        if flags & RETAIN:
            return True
        if flags & LINK_ORDER:
            return False
        if kind == NOTE or not flags & ALLOCATED:
            return number not in self.in_groups
        return kind in CALLED or kind == UNWIND or name in KEPT_NAMES or name.startswith(CALLED_NAMES)

    def read_link_order(self):
        """Lets sections with `SHF_LINK_ORDER` live with those to which they are linked; answers which are kept for that, and with what."""
        owners = {}
        for number, (_, _, flags, _, _, _, owner, *_) in enumerate(self.file.sections):
            if not self.with_output[number] or not flags & LINK_ORDER or number in self.retained:
                continue
            if owner >= len(self.file.sections):
                raise ValueError("a section is linked to none")
            if number in self.locals and owner:
                self.pairs.add((owner, self.locals[number]))
            elif number not in self.in_groups:
                self.retained.add(number)
                owners[number] = owner
        return owners

    def read_relocations(self, owners, warnings):
        """The references of the sections that keep what they refer to."""
        file = self.file
        if file.first_of(COMPACT_RELOCATIONS) is not None:
            warnings.tell(file.name, "has relocations of the kind SHT_CREL, which aren't read: what they refer to may be told as dead")
        for number, places, symbols in relocations(file):
            if self.is_silent(number):
                continue
            records = unwind_records(file, number, places, symbols) if self.names[number] == b".eh_frame" else None
            if records is None:
                self.add(owners.get(number, number), symbols)
                continue
            for asked, common in records:
                if common is not None and asked:
                    self.add(self.homes[asked[0]], asked[1:] + common)

    def is_silent(self, number):
        """Whether a section is kept, and what it refers to isn't kept for it."""
        kind, flags = self.file.sections[number][1:3]
        return not flags & (ALLOCATED | RETAIN | LINK_ORDER) and kind != NOTE and number not in self.in_groups

    def add(self, section, symbols):
        """References of a section. The null entry is none, and the null section has none."""
        if max(symbols, default=0) >= max(len(self.homes), 1):
            raise ValueError("a relocation of no symbol")
        self.pairs.update((section, symbol) for symbol in symbols if symbol and section)


def relocations(file):
    """The number of each section that has relocations, with the places and the symbols of these."""
    for number, section in enumerate(file.sections):
        if section[1] in RELOCATIONS and section[7]:
            words = file.words("Q", file.bytes_of(number))
            step = RELOCATIONS[section[1]]
            yield section[7], words[::step], [info >> 32 for info in words[1::step]]


def unwind_records(file, number, places, symbols):
    """The symbols of each record of `.eh_frame`, in order, and those of the common record that it names.

    The first symbol is the function that is described. A common record itself has None in the second place. Where the
    records can't be read, there is None in the place of all.
    """
    bounds = record_bounds(file, file.bytes_of(number))
    if bounds is None:
        return None
    symbols = [symbol for _, symbol in sorted(zip(places, symbols))]
    places, asked = sorted(places), {}
    for start, end, _ in bounds:
        asked[start] = symbols[bisect.bisect_left(places, start) : bisect.bisect_left(places, end)]
    return [(asked[start], None if common is None else asked.get(common, [])) for start, _, common in bounds]


def record_bounds(file, data):
    """Where each record of `.eh_frame` begins and ends, with the place of the common one that it names, or None."""
    found, at = [], 0
    while at + 4 <= len(data):
        (length,) = struct.unpack_from(file.order + "I", data, at)
        if length in (0, 0xFFFFFFFF):
            # The end, or a record of 2^32 bytes or more, which no compiler writes.
            return None if length else found
        end = at + 4 + length
        if end > len(data) or length < 4:
            return None
        (distance,) = struct.unpack_from(file.order + "I", data, at + 4)
        found.append((at, end, at + 4 - distance if distance else None))
        at = end
    return found

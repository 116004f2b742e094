"""The members of an archive, plain or thin."""

import os

from .faults import Fault

PLAIN, THIN = b"!<arch>\n", b"!<thin>\n"
# Members that are no files: tables of symbols and of long names.
TABLES = {b"/", b"//", b"/SYM64/", b"__.SYMDEF", b"__.SYMDEF SORTED", b"__.SYMDEF_64"}


def members(path, data, open_file):
    """The name and the bytes of each member, in order. `open_file` opens the members of a thin archive by their paths."""
    is_thin = bytes(data[:8]) == THIN
    long_names = b""
    place = 8
    while place + 60 <= len(data):
        header = bytes(data[place : place + 60])
        size = size_in(path, header)
        raw = header[:16].rstrip(b" ")
        start = place + 60
        is_table = raw in TABLES
        end = start + (size if is_table or not is_thin else 0)
        if end > len(data):
            raise Fault(path, "is cut short")
        place = end + (end & 1)
        if raw == b"//":
            long_names = bytes(data[start:end])
        elif not is_table:
            name, skipped = name_of(path, raw, long_names, data[start : start + 1024])
            if is_thin:
                yield name, open_file(os.path.join(os.path.dirname(path), name))
            elif name.encode("utf-8", "surrogateescape") not in TABLES:
                yield name, data[start + skipped : end]


def size_in(path, header):
    """The size that a member's header tells."""
    if header[58:60] != b"`\n" or not header[48:58].strip().isdigit():
        raise Fault(path, "has a member whose header can't be read")
    return int(header[48:58])


def name_of(path, raw, long_names, content):
    """A member's name, and how many bytes of what it holds are the name itself."""
    if raw.startswith(b"#1/") and raw[3:].isdigit():
        length = int(raw[3:])
        return bytes(content[:length]).rstrip(b"\0").decode("utf-8", "surrogateescape"), length
    if raw.startswith(b"/") and raw[1:].isdigit():
        at = int(raw[1:])
        end = long_names.find(b"\n", at)
        if at >= len(long_names) or end < 0:
            raise Fault(path, "has a member whose name can't be read")
        raw = long_names[at:end]
    elif raw.startswith(b"/"):
        raise Fault(path, "has a member of another thin archive, which is not read")
    return raw.removesuffix(b"/").decode("utf-8", "surrogateescape"), 0

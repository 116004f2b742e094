"""Names as JSON: a text where the bytes are UTF-8, else their hexadecimal digits."""

import json
import re

# What a JSON text can't hold as it stands.
ESCAPED = re.compile(rb'[\x01-\x1f"\\]')


def json_of(name):
    """The JSON value of some bytes."""
    try:
        return json.dumps(name.decode(), ensure_ascii=False)
    except UnicodeDecodeError:
        return '{"hex":"' + name.hex() + '"}'


class Names:
    """A table of strings, each of which ends at a byte of zero."""

    def __init__(self, table):
        self.table = bytes(table)
        # Nearly every table is ASCII without quotes, and then a name is a slice of one text.
        self.plain = self.table.isascii() and not ESCAPED.search(self.table)
        self.text = self.table.decode("latin-1")
        self.has_versions = "@" in self.text

    def bytes(self, place):
        """The name at a place."""
        return self.table[place : self.table.index(0, place)]

    def json(self, place):
        """The name at a place as JSON."""
        end = self.text.index("\0", place)
        if self.plain:
            return '"' + self.text[place:end] + '"'
        return json_of(self.table[place:end])

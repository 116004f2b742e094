"""What `link` and `why` write of a manifest, read with the names in it: so a name may hold line feeds."""

import re

from explained.faults import Fault
from explained.lines import CASES, NUMBER

from .symbols import printed

LOADED = re.compile(f"loaded {NUMBER} ")
KEPT = re.compile(f"kept {NUMBER} {NUMBER} ")
MEANS = re.compile(f" -> {NUMBER} \\[(?:[A-Z_]+(?: \\| [A-Z_]+)*)?\\]\n")
VERSION = re.compile(f"version {NUMBER} {NUMBER}\n")
UNDEFINED = re.compile(f"undefined {NUMBER} ")
MISSING = re.compile("missing .*\n")
RULE = re.compile(f" {NUMBER} (?:{'|'.join(CASES)})((?: {NUMBER}){{2,}})\n")


class Lines:
    """The lines of a file, read one after the other."""

    def __init__(self, path, command):
        self.path, self.command, self.at = path, command, 0
        try:
            with open(path, "rb") as file:
                self.text = file.read().decode()
        except OSError as reason:
            raise Fault(f"{path}: {reason.strerror}") from None
        except UnicodeDecodeError:
            raise Fault(f"{path}: no text") from None

    def begins(self, word):
        """The next line begins with this word."""
        return self.text.startswith(word + " ", self.at)

    def take(self, pattern, most=()):
        """Reads what fits a pattern, with numbers that are each below a bound, and answers these."""
        found = pattern.match(self.text, self.at)
        if not found:
            raise self.fault()
        numbers = [int(number) for number in found.groups() if number is not None]
        for number, bound in zip(numbers, most):
            if number >= bound:
                raise self.fault(f"{number} is not below {bound}")
        self.at = found.end()
        return numbers

    def take_text(self, text):
        """Reads this text."""
        if not self.text.startswith(text, self.at):
            raise self.fault(f"the manifest has {text.rstrip()!r} there")
        self.at += len(text)

    def take_end(self):
        """Reads the end of the file."""
        if self.at < len(self.text):
            raise self.fault()

    def fault(self, reason=""):
        """The fault that the line in which the reading stands is none that is due there."""
        start = self.text.rfind("\n", 0, self.at) + 1
        line = self.text[start:start + 100].partition("\n")[0]
        told = f"line {self.text.count(chr(10), 0, start) + 1}: no line that `{self.command}` writes there: {line}"
        return Fault(f"{self.path}: {told}{reason and f' ({reason})'}")


class Report:
    """What `link` writes: loaded objects, kept groups, what each symbol means, and the ids of its `undefined` lines."""

    def __init__(self, path, symbols):
        """The symbols that the linker adds are put behind those of the manifest."""
        lines = Lines(path, "link")
        objects, count = len(symbols.objects), len(symbols.names)
        self.loaded, self.kept, self.means, self.undefined = [], [], [], []
        while lines.begins("loaded"):
            self.loaded += lines.take(LOADED, [objects])
            lines.take_text(symbols.objects[self.loaded[-1]] + "\n")
        while lines.begins("kept"):
            self.kept.append(read_group(lines, symbols))
        for symbol in range(count):
            lines.take_text(f"symbol {symbol} {symbols.line_name(symbol)}")
            self.means += lines.take(MEANS)
        self.read_added(lines, symbols)
        while lines.begins("version"):
            lines.take(VERSION, [len(self.means)])
        while lines.begins("undefined"):
            self.undefined += lines.take(UNDEFINED, [count])
            lines.take_text(symbols.full_name(self.undefined[-1]) + "\n")
        while lines.begins("missing"):
            lines.take(MISSING)
        lines.take_end()
        for symbol, meant in enumerate(self.means):
            if meant >= len(self.means):
                raise Fault(f"{path}: symbol {symbol} means {meant}, and there are {len(self.means)} symbols")

    def read_added(self, lines, symbols):
        """The lines of the symbols that the linker adds."""
        names = []
        while lines.begins("symbol"):
            lines.take_text(f"symbol {len(self.means)} ")
            for found in MEANS.finditer(lines.text, lines.at):
                if lines.text[lines.at:found.start()] in symbols.ends:
                    break
            else:
                raise lines.fault("the manifest has no such symbol")
            names.append(lines.text[lines.at:found.start()])
            self.means.append(int(found[1]))
            lines.at = found.end()
        symbols.add_ends(names)


def read_group(lines, symbols):
    """The line of a kept group: its object, and its number there."""
    number, group = lines.take(KEPT, [len(symbols.objects)])
    if group >= len(symbols.signatures[number]):
        raise lines.fault(f"object {number} of the manifest has no group {group}")
    lines.take_text(symbols.signatures[number][group] + "\n")
    return number, group


class Reasons:
    """What `why` writes: why each object is loaded, and the choice of each name with several definitions."""

    def __init__(self, path, symbols):
        """The symbols are those of the manifest and of the report."""
        lines = Lines(path, "why")
        pattern, objects = why_pattern(symbols.root_names), len(symbols.objects)
        # Objects with the reference that loads them and the object of that reference, or with None twice.
        self.loaded = []
        # Definitions of a name, and of a name and version, each list with its choice.
        self.of_names, self.of_versions = [], []
        while lines.begins("why"):
            number, *by = lines.take(pattern, [objects, len(symbols.names), objects])
            self.loaded.append((number, *(by or (None, None))))
        while lines.begins("rule"):
            self.read_rule(lines, symbols)
        lines.take_end()

    def read_rule(self, lines, symbols):
        """A line of a name with several definitions. The first of these tells where the name ends."""
        start = lines.at + len("rule ")
        for found in RULE.finditer(lines.text, start):
            ids = [int(number) for number in found[2].split()]
            if ids[0] >= len(symbols.names):
                continue
            name, full_name = printed(symbols.names[ids[0]]), symbols.full_name(ids[0])
            length = found.start() - start
            if length in (len(name), len(full_name)) and lines.text.startswith(full_name[:length], start):
                break
        else:
            raise lines.fault()
        choice = int(found[1])
        if max(choice, *ids) >= len(symbols.names):
            raise lines.fault(f"{max(choice, *ids)} is not below {len(symbols.names)}")
        (self.of_names if length == len(name) else self.of_versions).append((choice, ids))
        lines.at = found.end()


def why_pattern(names):
    """The pattern of a line about an object, where these are root names. Only they may hold line feeds."""
    long_names = sorted((name for name in names if "\n" in name), key=len, reverse=True)
    roots = "|".join([*map(re.escape, long_names), ".+"])
    return re.compile(f"why {NUMBER} (?:required|symbol {NUMBER} of {NUMBER}|root (?:{roots}))\n")

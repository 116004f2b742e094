"""Linker scripts, as far as they bring inputs, symbols, an entry point or versions into a link."""

import re

from .faults import Fault
from .keep import Keep

BLANK = re.compile(r"(?:\s+|/\*.*?\*/|#[^\n]*)+", re.S)
WORD = re.compile(r"[A-Za-z_.$][\w.$]*")
# A name of a file, or an option of a library, in a list of inputs.
FILE = re.compile(r'"([^"]*)"|([^\s,(){};"]+)')
ASSIGNED = re.compile(r'"?([A-Za-z_$][\w.$]*)"?\s*(?:[-+*/&|]|<<|>>)?=(?!=)([^;{}]*?)(?=[;{}]|\Z)', re.S)
TOKEN = re.compile(r'"[^"]*"|[\w.$*?/:\[\]~-]+|.', re.S)
# Functions of expressions whose arguments are no symbols to be loaded.
NO_SYMBOLS = r"(?:ADDR|LOADADDR|SIZEOF|ALIGNOF|CONSTANT|SEGMENT_START|ORIGIN|LENGTH|DEFINED|SIZEOF_HEADERS)"
ARGUMENTS = re.compile(NO_SYMBOLS + r"\s*\([^()]*\)")
SYMBOL = re.compile(r"(?<![\w.$])([A-Za-z_$][\w.$]*)(?![\w.$]|\s*\()")
LISTED = {"OUTPUT_FORMAT", "OUTPUT_ARCH", "OUTPUT", "TARGET", "ASSERT", "LD_FEATURE", "NOCROSSREFS", "REGION_ALIAS", "SEARCH_DIR"}
BLOCKS = {"MEMORY", "PHDRS"}
DEFINING = {"PROVIDE": (False, True), "HIDDEN": (True, False), "PROVIDE_HIDDEN": (True, True)}


class Script:
    """What a linker script says."""

    def __init__(self, name):
        self.name = name
        self.inputs = []  # pairs of a file's name or `-l` with a library's, and whether it is taken only as needed
        self.search = []
        self.entry = None
        self.undefined = []
        self.version = None
        self.symbols = []  # name, targets, whether it is hidden, whether it is provided
        self.includes = []
        self.keeps = []  # sections that stay with --gc-sections
        self.lays_out = False


def expression_names(text):
    """The symbols that an expression refers to."""
    found = []
    for name in SYMBOL.findall(ARGUMENTS.sub(" ", re.sub(r'[{}"]', " ", text))):
        if name not in found and not re.match(r"0[xX]", name) and name != "SIZEOF_HEADERS":
            found.append(name)
    return found


class Reader:
    """Goes through the text of a script once, from the start to the end."""

    def __init__(self, name, text):
        self.text = text
        self.place = 0
        self.script = Script(name)
        self.known = False

    def read(self):
        """The whole script; a text of which nothing is known is refused."""
        while True:
            self.skip()
            if self.place >= len(self.text):
                break
            self.statement()
        if not self.known and self.text.strip():
            raise Fault(self.script.name, "is no object, archive or linker script")
        return self.script

    def skip(self):
        """Passes over blanks and comments."""
        blank = BLANK.match(self.text, self.place)
        if blank:
            self.place = blank.end()

    def statement(self):
        """One command or assignment, or one token of something else."""
        word = WORD.match(self.text, self.place)
        if word and self.command(word.group(), word.end()):
            self.known = True
            return
        assigned = ASSIGNED.match(self.text, self.place)
        if assigned:
            self.known = True
            self.define(assigned, False, False)
            return
        self.place = TOKEN.match(self.text, self.place).end()

    def command(self, word, end):
        """Reads a command, if the word at hand is one."""
        before = self.place
        self.place = end
        self.skip()
        opening = self.text[self.place : self.place + 1]
        if opening == "(" and word in ("INPUT", "GROUP", "STARTUP"):
            self.files(False)
        elif opening == "(" and word in ("SEARCH_DIR", "ENTRY", "EXTERN", *LISTED):
            self.listed(word, self.enclosed("(", ")"))
        elif opening == "(" and word in DEFINING:
            self.provided(word)
        elif opening == "(" and word == "KEEP":
            self.script.keeps.append(Keep(self.enclosed("(", ")")))
        elif opening == "{" and word == "VERSION":
            self.script.version = self.enclosed("{", "}").strip()
        elif opening == "{" and word in BLOCKS:
            self.enclosed("{", "}")
        elif opening == "{" and word == "SECTIONS":
            self.script.lays_out = True
            self.place += 1
        elif word == "INCLUDE":
            self.include()
        elif word != "FORCE_COMMON_ALLOCATION":
            self.place = before
            return False
        return True

    def include(self):
        """The name of a script that is to be read in this place."""
        name = FILE.match(self.text, self.place)
        if not name:
            raise Fault(self.script.name, "has an INCLUDE without a name")
        self.script.includes.append(name[1] or name[2])
        self.place = name.end()

    def listed(self, word, inside):
        """A command with names in parentheses."""
        names = [first or second for first, second in FILE.findall(inside)]
        if word == "SEARCH_DIR":
            self.script.search += names
        elif word == "ENTRY":
            self.script.entry = names[0] if names else None
        elif word == "EXTERN":
            self.script.undefined += names

    def provided(self, word):
        """A symbol that the script defines hidden, or only where something asks for it."""
        inside_at = self.place + 1
        inside = self.enclosed("(", ")")
        after = self.place
        self.place = inside_at
        self.skip()
        assigned = ASSIGNED.match(inside, self.place - inside_at)
        if not assigned:
            raise Fault(self.script.name, f"has a {word} that can't be read")
        self.define(assigned, *DEFINING[word])
        self.place = after

    def define(self, assigned, hidden, provide):
        """Notes a symbol, once."""
        name = assigned[1]
        if all(name != symbol[0] for symbol in self.script.symbols):
            targets = [target for target in expression_names(assigned[2]) if target != name]
            self.script.symbols.append((name, targets, hidden, provide))
        self.place = assigned.end()

    def files(self, as_needed):
        """The files of INPUT, GROUP or AS_NEEDED, behind an opening parenthesis."""
        self.place += 1
        while True:
            self.skip()
            at = self.text[self.place : self.place + 1]
            if at == "":
                raise Fault(self.script.name, "has a list of files that isn't closed")
            if at == ")":
                self.place += 1
                return
            name = FILE.match(self.text, self.place)
            if not name:
                self.place += 1
                continue
            self.place = name.end()
            if name[2] == "AS_NEEDED":
                self.skip()
                self.files(True)
            else:
                self.script.inputs.append((name[1] or name[2], as_needed))

    def enclosed(self, opening, closing):
        """What stands between an opening mark at hand and the closing one that belongs to it."""
        start, depth = self.place + 1, 0
        while self.place < len(self.text):
            mark = TOKEN.match(self.text, self.place).group()
            self.place += len(mark)
            depth += (mark == opening) - (mark == closing)
            if depth == 0:
                return self.text[start : self.place - 1]
        raise Fault(self.script.name, f"has a {opening} that isn't closed")


def read_script(name, data):
    """The script that some bytes are."""
    if b"\0" in data[:4096]:
        raise Fault(name, "is no object, archive or linker script")
    return Reader(name, data.decode("utf-8", "surrogateescape")).read()

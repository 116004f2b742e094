"""The term of a world, in lines that a person can read."""

WIDTH = 120

PLACES = {"undefined": "Undefined", "absolute": "Absolute", "common": "Common"}
BINDINGS = {"local": "Local", "global": "Global", "weak": "Weak", "unique": "Unique"}
VISIBILITIES = {"default": "Default", "protected": "Protected", "hidden": "Hidden"}
KINDS = {"plain": "Plain", "func": "Func", "ifunc": "Ifunc", "tls": "Tls"}
OUTPUTS = {"static": "StaticExecutable", "dynamic": "DynamicExecutable", "shared": "SharedObject", "partial": "Partial"}
PLACEMENTS = {"section_start": "SectionStart", "section_end": "SectionEnd", "section_group_end": "SectionGroupEnd",
              "tls_end": "TlsEnd", "load_base": "LoadBaseAddress", "platform": "PlatformSpecific"}
ESCAPES = {0: "\\0", 9: "\\t", 10: "\\n", 13: "\\r", 34: '\\"', 92: "\\\\"}
LONGEST = 100  # characters of a quoted text
SAME = 8  # as many equal items in a list are written by their number


# ---- terms: a word, or one of these; `flat` is a term on one line, `broken` one whose further lines begin at a column

class Call:
    """a word and what it is given"""

    def __init__(self, head, *args):
        self.head, self.args = head, args

    def flat(self):
        return " ".join([self.head] + [inner(a) for a in self.args])

    def broken(self, column):
        for longest in (70, 35, 15):
            out = self.head
            for a in self.args:
                term = inner(a)
                if len(term) <= longest or isinstance(a, str):
                    out += " " + term
                else:
                    out += " (%s)" % a.broken(column - 2 if isinstance(a, Record) else column)
            if all(column + len(line) <= WIDTH for line in out.split("\n")):
                break
        return out


class Rows:
    """a list; broken, it has a line for each item"""

    def __init__(self, items):
        self.items = items

    def is_one(self):
        return len(self.items) >= SAME and all(flat(x) == flat(self.items[0]) for x in self.items)

    def flat(self):
        if self.is_one():
            return "copies %d %s" % (len(self.items), inner(self.items[0]))
        return " ∷ ".join([item(x) for x in self.items] + ["[]"])

    def broken(self, column):
        start = "\n" + " " * column
        return self.flat() if self.is_one() else start + (" ∷" + start).join(shown(x, column) for x in self.items) + " ∷ []"


class Pieces:
    """texts one after the other; broken, each has a line"""

    def __init__(self, pieces):
        self.pieces = pieces

    def flat(self):
        return " ++ ".join(self.pieces)

    def broken(self, column):
        start = "\n" + " " * column
        return start + (" ++" + start).join(self.pieces)


class Record:
    """values by their fields, perhaps over those of another record; broken, each field has a line"""

    def __init__(self, fields, base=None):
        self.fields, self.start = fields, "record %s{" % (base + " " if base else "")

    def flat(self):
        return "%s %s }" % (self.start, "; ".join("%s = %s" % (k, flat(v)) for k, v in self.fields))

    def broken(self, column):
        start = "\n" + " " * column
        return "%s%s%s}" % (self.start, "".join("%s%s = %s;" % (start, k, shown(v, column, flat)) for k, v in self.fields).replace("= \n", "=\n"), start[:-2])


def flat(term):
    return term if isinstance(term, str) else term.flat()


def inner(term):
    """what is given to a word, on one line"""
    out = flat(term)
    return "(%s)" % out if " " in out else out


def item(term):
    """an item of a list, on one line"""
    return inner(term) if isinstance(term, Rows) or isinstance(term, Pieces) and len(term.pieces) > 1 or isinstance(term, Call) and not term.args else flat(term)


def shown(term, column, whole=item):
    """a term of a line that begins at this column: on that line where it fits"""
    one = whole(term)
    return one if len(one) + column <= WIDTH or isinstance(term, str) else term.broken(column + deeper(term, whole))


def deeper(term, whole):
    """how far the layout of the checker's formatter moves the further lines of an item, or of a field"""
    return (2 if isinstance(term, Record) else 0) if whole is item else (2 if isinstance(term, Record) else 4)


# ---- bytes

def quoted(data):
    return "".join(ESCAPES[c] if c in ESCAPES else chr(c) if 32 <= c < 127 else "\\u{%x}" % c for c in data)


def pieces_of(data):
    """quoted texts of what is ASCII, and numbers for the rest"""
    out, i = [], 0
    while i < len(data):
        k = i
        while k < len(data) and (data[k] < 128) == (data[i] < 128) and k - i < LONGEST:
            k += 1
        out.append('codes "%s"' % quoted(data[i:k]) if data[i] < 128 else "(%s[])" % "".join("%d ∷ " % c for c in data[i:k]))
        i = k
    return out


def text(data):
    pieces = pieces_of(data)
    return "[]" if not pieces else Call(pieces[0][1:-1]) if pieces[0].startswith("(") and len(pieces) == 1 else Pieces(pieces)


def told(data):
    """the bytes of a report, a line each"""
    return Pieces([" ++ ".join(pieces_of(line)) for line in data.splitlines(keepends=True)]) if data else "[]"


def texts(values):
    return Rows([text(value) for value in values])


def maybe(value, term):
    return "None" if value is None else Call("Some", term(value))


def truth(value):
    return "true" if value else "false"


# ---- a manifest

def place(value):
    return PLACES[value] if isinstance(value, str) else Call("Section", str(value))


def entry(e):
    if e["bind"] == "local" and e["place"] == "undefined":
        return "null_entry"
    plain = {"bind": "global", "vis": "default", "kind": "plain", "size": 0, "version": None, "default": True}
    if all(e[key] == value for key, value in plain.items()):
        if e["place"] == "undefined":
            return Call("refers", text(e["name"]))
        if isinstance(e["place"], int):
            return Call("defines", text(e["name"]), str(e["place"]))
    return Call("entry", text(e["name"]), maybe(e["version"], text), truth(e["default"]), BINDINGS[e["bind"]], VISIBILITIES[e["vis"]],
                KINDS[e["kind"]], str(e["size"]), place(e["place"]))


def group(g):
    return Call("group", str(g["header"]), str(g["signature"]), truth(g["comdat"]), Rows([str(m) for m in g["members"]]))


def file_of(o):
    flags = [o["dynamic"], o["archive"], o["whole_archive"], o["as_needed"]]
    entries = [entry(e) for e in o["symbols"]]
    is_plain = o["sections"] == 4 and not o["groups"] and not flags[2] and not flags[3] and not (flags[0] and flags[1])
    if is_plain and entries[:1] == ["null_entry"]:
        return Call("shared" if flags[0] else "member" if flags[1] else "object", text(o["name"]), Rows(entries[1:]))
    return Call("file", text(o["name"]), *map(truth, flags), str(o["sections"]), Rows(entries), Rows([group(g) for g in o["groups"]]))


def redirect(x, kind):
    return Call("redirect", text(x["name"]), kind, texts(x["targets"]), truth(x.get("hidden", False)))


def linker_script(s):
    return Call("linker_script", text(s["name"]), maybe(s["entry"], text), maybe(s["version"], text),
                Rows([redirect(x, "Provide" if x["provide"] else "Script") for x in s["symbols"]]))


def stub(s):
    return Call("stub", text(s["name"]), texts(s["strong"]), texts(s["weak"]))


def internal(x):
    placement = PLACEMENTS[x["placement"]]
    if x["placement"] not in ("load_base", "platform"):
        placement = Call(placement, str(x["section"]))
    return Call("internal", text(x["name"]), placement, truth(x["hidden"]))


def options(m):
    terms = {"output": lambda v: OUTPUTS[v], "entry": lambda v: maybe(v, text), "default_entry": lambda v: maybe(v, text),
             "allow_multiple": truth, "files_per_group": str, "wrap": texts, "force_undefined": texts, "force_export": texts,
             "defsym": lambda v: Rows([redirect(x, "DefSym") for x in v]), "linker_symbols": lambda v: Rows([internal(x) for x in v]),
             "custom_sections": texts}
    usual = {"output": "static", "entry": None, "default_entry": None, "allow_multiple": False, "files_per_group": 256}
    said = [(key, term(m[key])) for key, term in terms.items() if m[key] != usual.get(key, [])]
    return Record(said, "default_options") if said else "default_options"


def files(batch):
    """the fields of a batch"""
    return [("objects", Rows([file_of(o) for o in batch["objects"]])), ("scripts", Rows([linker_script(s) for s in batch["scripts"]])),
            ("stubs", Rows([stub(s) for s in batch["stubs"]]))]


def given(m):
    """what a link is given"""
    rest = [("options", options(m)), ("texts", Call("texts", maybe(m["version_script"], text), maybe(m["export_list"], text)))]
    if m["batches"] or m["scripts"] or m["stubs"] or m["version_script"] is not None or m["export_list"] is not None:
        return Record([("first", Record(files(m))), ("later", Rows([Record(files(b)) for b in m["batches"]]))] + rest)
    return Call("of_objects", options(m), Rows([file_of(o) for o in m["objects"]]))


def field(head, term):
    """a word and what it is given, as the value of a field"""
    one = "%s %s" % (head, inner(term))
    return one if len(one) <= WIDTH else "%s (%s)" % (head, term.broken(4 if isinstance(term, Record) else 6))


def world(m):
    """the term of a world"""
    return field("world_of %s undemangled" % ("elf_like" if m["platform"] == "elf" else "mach_like"), given(m))


def outcome(expected):
    """a report, or a line that begins with `error: `"""
    if expected.startswith(b"error: "):
        return field("refusal", text(expected[len(b"error: "):-1]))
    return field("report", told(expected))

"""Reads a manifest: each key is known, each value is of its kind, and each object's table passes its checks."""
import json

U32 = 2 ** 32 - 1
U64 = 2 ** 64 - 1


class Refused(Exception):
    """a manifest that is not read, with the path of what is wrong"""


def refuse(path, what):
    raise Refused("%s: %s" % (path or "manifest", what))


# ---- kinds: each takes a value and its path, and gives what is read

def at(path, key):
    return key if not path else "%s.%s" % (path, key)


def truth(value, path):
    return value if isinstance(value, bool) else refuse(path, "expected true or false")


def is_number(value, low, high):
    return isinstance(value, int) and not isinstance(value, bool) and low <= value <= high


def number(low=0, high=U32):
    return lambda value, path: value if is_number(value, low, high) else refuse(path, "expected a number from %d to %d" % (low, high))


def word(*words):
    return lambda value, path: value if isinstance(value, str) and value in words else refuse(path, "expected one of " + ", ".join(words))


def text(value, path):
    """the bytes of a text, of which no character is half a pair of surrogates"""
    if not isinstance(value, str) or any(0xD800 <= ord(c) < 0xE000 for c in value):
        refuse(path, "expected a text")
    return value.encode()


def raw(value, path):
    """bytes: a text, or an object with hexadecimal digits"""
    if isinstance(value, str):
        return text(value, path)
    if isinstance(value, dict) and list(value) == ["hex"] and isinstance(value["hex"], str):
        digits = value["hex"]
        if len(digits) % 2 == 0 and all(c in "0123456789abcdefABCDEF" for c in digits):
            return bytes.fromhex(digits)
    refuse(path, 'expected a text, or {"hex": digits}')


def maybe(kind):
    return lambda value, path: None if value is None else kind(value, path)


def many(kind):
    def read(value, path):
        if not isinstance(value, list):
            refuse(path, "expected a list")
        return [kind(item, "%s[%d]" % (path, i)) for i, item in enumerate(value)]
    return read


def place(value, path):
    if isinstance(value, str):
        return word("undefined", "absolute", "common")(value, path)
    return number()(value, path)


def record(**fields):
    """an object with these keys: a kind and what stands where the key is left out, or the kind alone of a key that must be there"""
    def read(value, path):
        if not isinstance(value, dict):
            refuse(path, "expected an object")
        for key in value:
            if key not in fields:
                refuse(at(path, key), "unknown key")
        got = {}
        for key, field in fields.items():
            kind, *default = field if isinstance(field, tuple) else (field,)
            if key in value:
                got[key] = kind(value[key], at(path, key))
            elif default:
                got[key] = list(default[0]) if isinstance(default[0], list) else default[0]
            else:
                refuse(at(path, key), "missing")
        return got
    return read


ENTRY = record(name=raw, place=place, bind=(word("local", "global", "weak", "unique"), "global"),
               vis=(word("default", "protected", "hidden"), "default"), kind=(word("plain", "func", "ifunc", "tls"), "plain"),
               size=(number(0, U64), 0), version=(maybe(raw), None), default=(truth, True))
GROUP = record(header=number(), signature=number(), comdat=(truth, True), members=(many(number()), []))
OBJECT = record(name=text, dynamic=(truth, False), archive=(truth, False), whole_archive=(truth, False), as_needed=(truth, False),
                lib_name=(raw, None), sections=(number(), 0), symbols=(many(ENTRY), []), groups=(many(GROUP), []))
SCRIPT_SYMBOL = record(name=raw, targets=(many(raw), []), hidden=(truth, False), provide=(truth, False))
SCRIPT = record(name=text, entry=(maybe(raw), None), version=(maybe(raw), None), symbols=(many(SCRIPT_SYMBOL), []))
STUB = record(name=text, strong=(many(raw), []), weak=(many(raw), []))
LINKER_SYMBOL = record(name=raw, placement=word("section_start", "section_end", "section_group_end", "tls_end", "load_base", "platform"),
                       section=(number(), 0), hidden=(truth, False))
FILES = {"objects": (many(OBJECT), []), "scripts": (many(SCRIPT), []), "stubs": (many(STUB), [])}
ROOT = record(platform=(word("elf", "macho"), "elf"), output=(word("static", "dynamic", "shared", "partial"), "static"),
              entry=(maybe(raw), None), default_entry=(maybe(raw), None), allow_multiple=(truth, False),
              files_per_group=(number(1, 256), 256), wrap=(many(raw), []), force_undefined=(many(raw), []), force_export=(many(raw), []),
              defsym=(many(record(name=raw, targets=(many(raw), []))), []), linker_symbols=(many(LINKER_SYMBOL), []),
              custom_sections=(many(raw), []), version_script=(maybe(raw), None), export_list=(maybe(raw), None),
              batches=(many(record(**FILES)), []), script_profile=(number(1, 2), 1), soname=(maybe(raw), None), **FILES)

NULL_ENTRY = {"name": b"", "place": "undefined", "bind": "local", "vis": "default", "kind": "plain", "size": 0, "version": None,
              "default": True}


# ---- the checks of a table, in their order

def table_fault(o, has_null):
    """the first check that the table of an object fails, or None"""
    symbols, groups, sections = o["symbols"], o["groups"], o["sections"]
    for i, e in enumerate(symbols):
        if e["place"] == "undefined" and e["bind"] == "local" and not (has_null and i == 0):
            return "symbol %d is undefined and local" % i
    for i, e in enumerate(symbols):
        if e["version"] is None and not e["default"]:
            return "symbol %d has no version and is not default" % i
    for i, e in enumerate(symbols):
        if isinstance(e["place"], int) and e["place"] >= sections:
            return "symbol %d has no such section" % i
    for i, g in enumerate(groups):
        if g["signature"] >= len(symbols):
            return "group %d has no such signature" % i
    for i, g in enumerate(groups):
        for section in [g["header"]] + g["members"]:
            if section >= sections:
                return "group %d has no section %d" % (i, section)
    headers = [g["header"] for g in groups]
    for i, header in enumerate(headers):
        if header in headers[:i]:
            return "group %d repeats a header" % i
    members = {m for g in groups for m in g["members"]}
    for i, header in enumerate(headers):
        if header in members:
            return "group %d has a header that is a member" % i
    return None


def read(tree):
    """the manifest of a tree of JSON: each key with its value, bytes as bytes, and the null entries put in"""
    m = ROOT(tree, "")
    for i, name in enumerate(m["custom_sections"]):
        if name in m["custom_sections"][:i]:
            refuse("custom_sections[%d]" % i, "repeated")
    if len(m["batches"]) > 255:
        refuse("batches", "more than 255")
    has_null = m["platform"] == "elf"
    for where, batch in [("", m)] + [("batches[%d]." % i, b) for i, b in enumerate(m["batches"])]:
        for i, o in enumerate(batch["objects"]):
            if has_null:
                o["symbols"].insert(0, NULL_ENTRY)
            fault = table_fault(o, has_null)
            if fault is not None:
                refuse("%sobjects[%d]" % (where, i), fault)
    return m


def once(pairs):
    """an object of JSON in which no key stands twice"""
    out = {}
    for key, value in pairs:
        if key in out:
            raise Refused("the key %s stands twice" % json.dumps(key))
        out[key] = value
    return out


def tree_of(data):
    return json.loads(data, object_pairs_hook=once)

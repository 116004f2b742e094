"""The symbols of a manifest by their ids, with what the lines of `link` and `why` don't tell of them."""

import json

from explained.faults import Fault
from explained.names import shown

START_STOP = ("__start_", "__stop_")


class Symbols:
    """The symbols of a manifest, in the order of their ids."""

    def __init__(self, manifest):
        """Raises KeyError, TypeError or the like where this is no manifest; the program tells what exactly is wrong with it."""
        self.is_macho = manifest.get("platform", "elf") == "macho"
        # Of each symbol: its name, its version, the number of its object, and its entry there, each None where it has none.
        self.names, self.versions, self.owners, self.entries = [""], [None], [None], [None]
        # Of each object: its name, and the names that sign its groups. The numbers of those that are shared.
        self.objects, self.signatures, self.shared = [], [], set()
        self.add(names_in(manifest.get("linker_symbols", [])))
        first_forced = len(self.names)
        self.add(manifest.get("force_undefined", []))
        self.forced = range(first_forced, len(self.names))
        self.add(names_in(manifest.get("defsym", [])))
        for file in manifest.get("objects", []):
            self.add_object(file)
        for script in manifest.get("scripts", []):
            self.add(names_in(script.get("symbols", [])))
        for stub in manifest.get("stubs", []):
            self.add([*stub.get("strong", []), *stub.get("weak", [])])
        # Start and stop symbols that the linker adds behind these, once a report tells which: their ids, and all by printed names.
        self.added = range(0)
        ends = [compared(name, front) for name in manifest.get("custom_sections", []) for front in START_STOP]
        self.ends = {printed(name): name for name in ends}
        self.root_names = root_names(manifest)

    def add(self, names, versions=None, owner=None, entries=None):
        """Further symbols, of an object or of none."""
        self.names += map(compared, names)
        nothing = [None] * len(names)
        self.versions += versions or nothing
        self.owners += [owner] * len(names)
        self.entries += entries or nothing

    def add_object(self, file):
        """An object with its symbols."""
        number, start = len(self.objects), len(self.names)
        if not self.is_macho:
            self.add([""], owner=number)
        entries = file.get("symbols", [])
        versions = [None if entry.get("version") is None else compared(entry["version"]) for entry in entries]
        self.add(names_in(entries), versions, number, entries)
        self.objects.append(shown(file["name"]))
        self.signatures.append([printed(self.names[start + group["signature"]]) for group in file.get("groups", [])])
        if file.get("dynamic"):
            self.shared.add(number)

    def add_ends(self, names):
        """The symbols that the linker adds, by their printed names."""
        self.added = range(len(self.names), len(self.names) + len(names))
        self.add([self.ends[name] for name in names])

    def is_shared(self, symbol):
        """It is one of a shared object."""
        return self.owners[symbol] in self.shared

    def is_reference(self, symbol):
        """It asks for a definition. A hidden symbol of a shared object is neither."""
        entry = self.entries[symbol]
        return entry is not None and entry.get("place") == "undefined" and not (entry.get("vis") == "hidden" and self.is_shared(symbol))

    def is_default(self, symbol):
        """As a definition it stands for its plain name, and not for a name and version alone."""
        return self.entries[symbol] is None or self.entries[symbol].get("default", True)

    def is_weak(self, symbol):
        """A symbol of an object is weak."""
        return self.entries[symbol].get("bind") == "weak"

    def is_confined(self, symbol):
        """A symbol of an object is hidden or protected."""
        return self.entries[symbol].get("vis", "default") != "default"

    def binding(self, symbol):
        """How strong a definition of an object binds, in an order of such: a strong one most, of common ones the largest."""
        entry = self.entries[symbol]
        is_common = entry.get("place") == "common"
        if self.is_weak(symbol) or (entry.get("bind") == "unique" and not is_common):
            return (2, 0) if self.is_macho else (0, 0)
        return (1, entry.get("size", 0)) if is_common else (3, 0)

    def line_name(self, symbol):
        """Its name in a `symbol` line."""
        return printed(self.names[symbol]) or "<unnamed>"

    def full_name(self, symbol):
        """Its name in an `undefined` line, and in a `rule` line about versions."""
        version = self.versions[symbol]
        return printed(self.names[symbol]) + ("" if version is None else "@" + printed(version))


def names_in(items):
    """The names of some entries."""
    return [item["name"] for item in items]


def compared(name, front=""):
    """A name in a form that is the same for the same bytes: a text, or bytes where they are no UTF-8."""
    if isinstance(name, str):
        return front + name
    data = front.encode() + (name if isinstance(name, bytes) else bytes.fromhex(name["hex"]))
    try:
        return data.decode()
    except UnicodeDecodeError:
        return data


def printed(name):
    """A name of that form as the program prints it."""
    return name if isinstance(name, str) else shown({"hex": name.hex()})


def root_names(manifest):
    """The printed root names that a manifest's own keys tell. Those of an export list hold no line feed."""
    scripts = manifest.get("scripts", [])
    names = [manifest.get("entry"), manifest.get("default_entry"), *manifest.get("force_undefined", [])]
    names += [script.get("entry") for script in scripts]
    for item in [*manifest.get("defsym", []), *(item for script in scripts for item in script.get("symbols", []))]:
        names += item.get("targets", [])
    return {shown(name) for name in names if name is not None}


def read_manifest(path):
    """A manifest in a file, and its symbols."""
    try:
        with open(path, "rb") as file:
            manifest = json.loads(file.read())
        if manifest.get("batches"):
            raise Fault(f"{path}: a manifest with batches, with which no claim goes")
        return manifest, Symbols(manifest)
    except OSError as reason:
        raise Fault(f"{path}: {reason.strerror}") from None
    except (ValueError, LookupError, TypeError, AttributeError, RecursionError):
        raise Fault(f"{path}: no manifest that `link` reads") from None

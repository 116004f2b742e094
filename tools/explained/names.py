"""The numbers that the program gives to the objects and symbols of a manifest, with their names."""

import bisect
import json

from .faults import Fault

# Symbol 0 is the undefined one.
FIRST_ID = 1


class Names:
    """The names of a manifest's objects, and of their symbols by their ids."""

    def __init__(self, manifest):
        """Raises KeyError, TypeError or the like where this is no manifest; the program tells what exactly is wrong with it."""
        self.null_entries = 0 if manifest.get("platform", "elf") == "macho" else 1
        self.objects, self.starts, self.symbols = [], [], []
        following = FIRST_ID + sum(len(manifest.get(key, [])) for key in ("linker_symbols", "force_undefined", "defsym"))
        for batch in [manifest, *manifest.get("batches", [])]:
            for file in batch.get("objects", []):
                symbols = file.get("symbols", [])
                self.objects.append(shown(file["name"]))
                self.starts.append(following)
                self.symbols.append(symbols)
                following += self.null_entries + len(symbols)
            following += sum(len(script.get("symbols", [])) for script in batch.get("scripts", []))
            following += sum(len(stub.get("strong", [])) + len(stub.get("weak", [])) for stub in batch.get("stubs", []))

    def of_object(self, number):
        """The name of an object."""
        if number >= len(self.objects):
            raise Fault(f"the manifest has no object {number}, but {len(self.objects)} objects")
        return self.objects[number]

    def entry(self, symbol):
        """The object of a symbol by its id, and its entry in the manifest; neither for what is no symbol of an object, or a null entry."""
        number = bisect.bisect_right(self.starts, symbol) - 1
        place = symbol - self.starts[number] - self.null_entries if number >= 0 else -1
        if not 0 <= place < len(self.symbols[number]):
            return None, None
        return number, self.symbols[number][place]

    def of_symbol(self, symbol, number):
        """The name of a symbol of an object."""
        owner, entry = self.entry(symbol)
        if owner != number:
            raise Fault(f"in the manifest, symbol {symbol} is none of object {number}")
        return shown(entry["name"])


def shown(name):
    """A name as the program prints it."""
    if isinstance(name, str):
        return name
    data = bytes.fromhex(name["hex"])
    try:
        return data.decode()
    except UnicodeDecodeError:
        return f"INVALID UTF-8({list(data)})"


def read_names(path):
    """The names in a manifest's file."""
    try:
        with open(path, "rb") as file:
            return Names(json.loads(file.read()))
    except OSError as reason:
        raise Fault(f"{path}: {reason.strerror}") from None
    except (ValueError, LookupError, TypeError, AttributeError, RecursionError):
        raise Fault(f"{path}: no manifest that `why` reads") from None

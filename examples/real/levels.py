"""How many references lead to each object of a manifest from what is loaded without any, by the rules of a link.

Written without a look at what the program says of the same link, for manifests as `tools/manifest` writes them: ELF, and one
batch. An object that isn't in the answer isn't loaded.
"""
import collections


class Definition:
    """A definition of a name: the number of its object, if an object has it, and how it counts among others."""

    def __init__(self, name, owner=None, is_shared=False, entry=None):
        self.name, self.owner, self.is_shared = name, owner, is_shared
        entry = entry or {}
        self.is_bound = owner is not None
        self.is_weak = entry.get("bind") == "weak"
        self.is_common = entry.get("place") == "common" and not self.is_weak
        self.is_unique = entry.get("bind") == "unique" and not self.is_common
        self.size = entry.get("size", 0)


class Rules:
    """The definitions of a manifest by their names, and what its references mean."""

    def __init__(self, manifest):
        self.manifest, self.objects = manifest, manifest["objects"]
        self.plain, self.versioned = collections.defaultdict(list), collections.defaultdict(list)
        # Linker symbols and redirects come before the objects, script symbols behind them.
        for symbol in [*manifest.get("linker_symbols", []), *manifest.get("defsym", [])]:
            self.plain[symbol["name"]].append(Definition(symbol["name"]))
        for number, file in enumerate(self.objects):
            self.add_object(number, file)
        for script in manifest.get("scripts", []):
            for symbol in script.get("symbols", []):
                self.plain[symbol["name"]].append(Definition(symbol["name"]))
        self.first = {name: found[0] for name, found in self.plain.items()}
        for name in manifest.get("wrap", []):
            self.wrap(name)

    def add_object(self, number, file):
        """Adds the definitions of an object."""
        is_shared = file.get("dynamic", False)
        for entry in file.get("symbols", []):
            is_inside = is_shared and entry.get("vis") == "hidden"
            if entry["place"] == "undefined" or entry.get("bind") == "local" or is_inside:
                continue
            found = Definition(entry["name"], number, is_shared, entry)
            if entry.get("default", True):
                self.plain[entry["name"]].append(found)
            if entry.get("version") is not None:
                self.versioned[entry["name"], entry["version"]].append(found)

    def wrap(self, name):
        """Lets a wrapped name mean its wrapper, and `__real_NAME` what the name meant."""
        original = self.first.get(f"__real_{name}", self.first.get(name))
        wrapper = self.first.get(f"__wrap_{name}")
        if wrapper:
            self.first[name] = wrapper
        if original:
            self.first[f"__real_{name}"] = original

    def target(self, entry):
        """What a reference means, or None."""
        if entry.get("version") is None:
            found = self.first.get(entry["name"])
        else:
            found = next(iter(self.versioned.get((entry["name"], entry["version"]), [])), None)
        if found is None or entry.get("vis", "default") == "default" or not found.is_shared:
            return found
        # A name that is hidden can't be found in a shared object: the best of the later definitions is meant.
        own = self.plain.get(found.name, [None])
        return picked([later for later in own[1:] if not later.is_shared]) if own[0] is found else None

    def asked_for(self, number):
        """The objects that an object's references load."""
        is_shared = self.objects[number].get("dynamic", False)
        for entry in self.objects[number].get("symbols", []):
            is_inside = is_shared and entry.get("vis") == "hidden"
            if entry["place"] != "undefined" or entry.get("bind") == "weak" or is_inside:
                continue
            found = self.target(entry)
            if found and found.owner not in (None, number) and not (is_shared and found.is_shared):
                yield found.owner

    def roots(self):
        """The objects that are loaded without a reference."""
        named = self.root_names()
        for number, file in enumerate(self.objects):
            is_optional = file.get("archive") and not file.get("whole_archive") or file.get("dynamic") and file.get("as_needed")
            if not is_optional:
                yield number
        yield from (self.first[name].owner for name in named if name in self.first and self.first[name].owner is not None)

    def root_names(self):
        """The entry, forced names, and the names that redirects refer to."""
        manifest, scripts = self.manifest, self.manifest.get("scripts", [])
        entries = [manifest.get("entry"), *(script.get("entry") for script in reversed(scripts)), manifest.get("default_entry")]
        yield from [name for name in entries if name is not None][:1]
        yield from manifest.get("force_undefined", [])
        for redirect in [*manifest.get("defsym", []), *(symbol for script in scripts for symbol in script.get("symbols", []))]:
            yield from redirect.get("targets", [])


def picked(found):
    """Of some definitions that no shared file gives the first strong one, else the largest common one, else the first weak or unique one."""
    found = [one for one in found if one.is_bound]
    strong = [one for one in found if not (one.is_weak or one.is_common or one.is_unique)]
    common = sorted((one for one in found if one.is_common), key=lambda one: -one.size)
    return next(iter([*strong[:1], *common[:1], *(one for one in found if one.is_weak or one.is_unique)]), None)


def levels(manifest):
    """The level of each loaded object by its number: 0 where it is loaded without a reference."""
    rules = Rules(manifest)
    found = dict.fromkeys(rules.roots(), 0)
    ring = list(found)
    while ring:
        following = [(loaded, found[number] + 1) for number in ring for loaded in rules.asked_for(number)]
        ring = []
        for number, level in following:
            if number not in found:
                found[number] = level
                ring.append(number)
    return found

"""The table of a claim, with one step for each symbol, found from lines that tell where two steps lead."""

# No symbol has this number, so no claim with it holds. It stands where lines contradict one another.
NOWHERE = 2**32 - 1


class Choices:
    """The definitions of names that have several, and which of them counts."""

    def __init__(self, symbols, reasons):
        self.symbols = symbols
        # The definitions by name, and by name and version. The choice by a definition, for both kinds of lists.
        self.of_name, self.of_version, self.chosen_by_name, self.chosen_by_version = {}, {}, {}, {}
        # The definitions in lists of names and versions, by their choice. Those for which two lists of a kind have another choice.
        self.behind, self.doubtful = {}, set()
        # What was found so far: first definitions by what counts, those of a name by their versions, and those beside shared ones.
        self.heads, self.versions, self.besides = {}, {}, {}
        for choice, ids in reasons.of_names:
            self.of_name[symbols.names[ids[0]]] = ids
            self.add(self.chosen_by_name, choice, ids)
        for choice, ids in reasons.of_versions:
            self.of_version[symbols.names[ids[0]], symbols.versions[ids[0]]] = ids
            self.behind.setdefault(choice, []).extend(ids)
            self.add(self.chosen_by_version, choice, ids)

    def add(self, chosen, choice, ids):
        """The choice of a list counts for each definition in it."""
        for symbol in ids:
            if chosen.setdefault(symbol, choice) != choice:
                self.doubtful.add(symbol)

    def of_definition(self, symbol, meant):
        """The step from a definition: one that is alone says itself what it means."""
        return self.chosen_by_version.get(symbol, self.chosen_by_name.get(symbol, meant))

    def head(self, meant):
        """The first definition of the name of the one that counts."""
        if meant not in self.heads:
            self.heads[meant] = self.found_head(meant)
        return self.heads[meant]

    def found_head(self, meant):
        """The first of its list. One that is alone may lie in the list of its name and version, of which another one is the choice."""
        if self.symbols.names[meant] in self.of_name:
            return self.of_name[self.symbols.names[meant]][0]
        candidates = [meant, *self.behind.get(meant, [])]
        return next((symbol for symbol in candidates if self.symbols.is_default(symbol)), meant)

    def versioned_head(self, name, version, meant):
        """The first definition of a name and version. One that is alone may lie in the list of its plain name."""
        if (name, version) in self.of_version:
            return self.of_version[name, version][0]
        if name not in self.versions:
            self.versions[name] = {self.symbols.versions[symbol]: symbol for symbol in self.of_name.get(name, [])}
        return self.versions[name].get(version, meant)

    def beside(self, name, version, meant):
        """What a reference that other files may not see takes, where the first definition is one of a shared object; else None."""
        ids = self.of_name.get(self.symbols.names[meant])
        if ids is None or not self.symbols.is_shared(ids[0]):
            return None
        if version is not None and ids[0] != self.versioned_head(name, version, None):
            return None
        if ids[0] not in self.besides:
            own = [symbol for symbol in ids if self.symbols.entries[symbol] and not self.symbols.is_shared(symbol)]
            self.besides[ids[0]] = max(own, key=self.symbols.binding, default=None)
        return self.besides[ids[0]]


class Table:
    """One step from each symbol, and the symbols about which the lines contradict one another."""

    def __init__(self, symbols, report, reasons):
        self.symbols, self.means = symbols, report.means
        self.choices = Choices(symbols, reasons)
        self.loaded = set(report.loaded)
        self.undefined = set(report.undefined)
        self.doubtful = set(self.choices.doubtful)
        # The reference that stands for all undefined ones to a name and version.
        self.standing = {}
        self.read_undefined(report.undefined)
        self.steps = [self.step(symbol, meant) for symbol, meant in enumerate(self.means)]
        two_steps = map(self.steps.__getitem__, self.steps)
        self.doubtful.update(symbol for symbol, (end, meant) in enumerate(zip(two_steps, self.means)) if end != meant)

    def read_undefined(self, undefined):
        """Each `undefined` line is of a reference in a loaded object, and the only one of its name or of its name and version."""
        seen = set()
        for symbol in undefined:
            key = self.symbols.names[symbol], self.symbols.versions[symbol]
            if key in seen or not self.symbols.is_reference(symbol) or self.is_unloaded(symbol):
                self.doubtful.add(symbol)
            seen.add(key)
            if key[1] is not None:
                self.standing.setdefault(key, symbol)

    def is_unloaded(self, symbol):
        """It is one of an object that isn't loaded."""
        return self.symbols.owners[symbol] is not None and self.symbols.owners[symbol] not in self.loaded

    def step(self, symbol, meant):
        """The step from a symbol that means another one."""
        if symbol in self.symbols.forced:
            return symbol if meant == symbol else self.choices.head(meant)
        if not self.symbols.is_reference(symbol):
            return self.choices.of_definition(symbol, meant)
        if self.is_unloaded(symbol):
            return meant
        version = self.symbols.versions[symbol]
        return self.plain_step(symbol, meant) if version is None else self.versioned_step(symbol, version, meant)

    def plain_step(self, symbol, meant):
        """From a reference of a loaded object: to what stands for its undefined name, or to the first definition."""
        is_left = meant == 0 or meant in self.symbols.added or self.symbols.is_reference(meant)
        if (is_left and self.symbols.names[symbol] != self.symbols.names[meant]) or (symbol == meant) != (symbol in self.undefined):
            self.doubtful.add(symbol)
        if is_left:
            return meant
        return self.first_definition(symbol, None, meant)

    def first_definition(self, symbol, version, meant):
        """The definition that a reference refers to, as its name is mapped, or its name and version."""
        if self.symbols.is_confined(symbol):
            own = self.choices.beside(self.symbols.names[symbol], version, meant)
            if own is not None:
                return own
        if version is None:
            return self.choices.head(meant)
        return self.choices.versioned_head(self.symbols.names[symbol], version, meant)

    def versioned_step(self, symbol, version, meant):
        """The same for a name and version. The last undefined reference keeps its own step, and the others point to it."""
        standing = self.standing.get((self.symbols.names[symbol], version))
        is_weak = self.symbols.is_weak(symbol)
        # Where the name and version have a definition, a strong reference that other files may see is never undefined.
        may_be_left = is_weak or self.symbols.is_confined(symbol)
        if standing not in (None, symbol) and (meant == 0 or (may_be_left and self.is_unloaded(meant))):
            step = standing
        else:
            step = self.first_definition(symbol, version, meant) if meant else 0
        is_left = step in (0, standing) or (is_weak and self.is_unloaded(step))
        if (standing is None or symbol > standing) if is_left else symbol == standing:
            self.doubtful.add(symbol)
        return step

"""The symbols that a linker defines itself, as GNU ld's own scripts and its code for x86-64 define them.

Told are those that a file asks for and no object defines: linkers define the others not at all, or without effect.
"""

# Numbers of output sections. A manifest takes any; these tell the sections apart.
TEXT, RELOCATIONS, FIRST_CALLS, CALLS, LAST_CALLS, DYNAMIC, OFFSETS, DATA, BSS = range(1, 10)


def symbol(name, placement, section=0, hidden=False):
    """One symbol of the list."""
    entry = {"name": name, "placement": placement}
    if section:
        entry["section"] = section
    if hidden:
        entry["hidden"] = True
    return entry


def ends(names, section):
    """Symbols of the end of a section."""
    return [symbol(name, "section_end", section) for name in names]


def both_ends(name, section):
    """The hidden symbols of a section's start and end."""
    return [symbol(f"{name}_start", "section_start", section, True), symbol(f"{name}_end", "section_end", section, True)]


def linker_symbols(output, position_independent, asked):
    """The symbols of an output whose names are asked for; a partial output has none."""
    if output == "partial":
        return []
    return [entry for entry in all_symbols(output, position_independent) if entry["name"] in asked]


def all_symbols(output, position_independent):
    """The symbols of an output that is no partial one."""
    found = [symbol("__ehdr_start", "load_base", hidden=True)]
    found += ends(["__etext", "_etext", "etext"], TEXT) + ends(["_edata", "edata"], DATA)
    found += [symbol("__bss_start", "section_start", BSS), *ends(["_end", "end"], BSS)]
    found.append(symbol("_GLOBAL_OFFSET_TABLE_", "section_start", OFFSETS, True))
    found.append(symbol("_TLS_MODULE_BASE_", "tls_end", hidden=True))
    if output != "static" or position_independent:
        found.append(symbol("_DYNAMIC", "section_start", DYNAMIC, True))
    if output != "shared":
        found.append(symbol("__executable_start", "load_base"))
        found += both_ends("__preinit_array", FIRST_CALLS) + both_ends("__init_array", CALLS) + both_ends("__fini_array", LAST_CALLS)
        if not position_independent:
            found += both_ends("__rela_iplt", RELOCATIONS)
    return found


# Every name that a linker may define in some output.
NAMES = frozenset(entry["name"] for position_independent in (False, True) for entry in all_symbols("dynamic", position_independent))

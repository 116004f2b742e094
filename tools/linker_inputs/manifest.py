"""The manifest of a command and its files, in the form that README.md describes."""

import json
import os

from .linker_symbols import linker_symbols
from .names import json_of
from .retained import Retained

MOST_BYTES = 2**28


def text(name):
    """A name of a file as a JSON text, with bytes that aren't UTF-8 spelled out."""
    return json.dumps(os.fsencode(name).decode("utf-8", "backslashreplace"), ensure_ascii=False)


def names(words):
    """A list of names of the words or of a script."""
    return "[" + ",".join(json_of(os.fsencode(word)) for word in words) + "]"


def redirects(symbols, more=lambda symbol: ""):
    """A list of redirects, each a name and what it refers to, and perhaps more."""
    return "[" + ",".join(f'{{"name":{json_of(os.fsencode(s[0]))},"targets":{names(s[1])}{more(s)}}}' for s in symbols) + "]"


def script_json(script):
    """A linker script."""
    parts = ['"name":' + text(script.name)]
    if script.entry is not None:
        parts.append('"entry":' + json_of(os.fsencode(script.entry)))
    if script.version is not None:
        parts.append('"version":' + json_of(os.fsencode(script.version)))
    if script.symbols:
        marks = {True: "true", False: "false"}
        parts.append('"symbols":' + redirects(script.symbols, lambda s: f',"hidden":{marks[s[2]]},"provide":{marks[s[3]]}'))
    return "{" + ",".join(parts) + "}"


def object_json(entry, retained):
    """An object, with its symbols as they were read, and with its references where sections are collected."""
    table = entry.table
    parts = ['"name":' + text(table.name)]
    marks = {"dynamic": table.dynamic, "archive": entry.archive, "whole_archive": entry.whole_archive, "as_needed": entry.as_needed}
    parts += [f'"{mark}":true' for mark, holds in marks.items() if holds]
    if table.lib_name is not None:
        parts.append('"lib_name":' + json_of(table.lib_name))
    parts.append(f'"sections":{table.sections}')
    parts.append('"symbols":[' + ",".join(table.symbols) + "]")
    if table.groups:
        parts.append('"groups":' + json.dumps(table.groups, separators=(",", ":")))
    if table.referring:
        pairs = ",".join(f'{{"from":{section},"to":{symbol}}}' for section, symbol in sorted(table.referring.pairs))
        parts.append(f'"section_refs":[{pairs}]')
        parts.append('"retain":' + json.dumps(retained.of(entry), separators=(",", ":")))
    return "{" + ",".join(parts) + "}"


def output_of(command, inputs):
    """The kind of output: an executable is dynamic where it has a shared object or may stand anywhere."""
    if command.output is not None:
        return command.output
    if inputs.has_shared() or command.position_independent and not command.static and not command.no_interpreter:
        return "dynamic"
    return "static"


def manifest_pieces(command, inputs):
    """The manifest, piece by piece."""
    output = output_of(command, inputs)
    yield f'{{"output":"{output}"'
    if command.entry:
        yield ',"entry":' + json_of(os.fsencode(command.entry))
    if output in ("static", "dynamic") and command.entry is None:
        yield ',"default_entry":"_start"'
    if command.allow_multiple:
        yield ',"allow_multiple":true'
    lists = {"wrap": command.wrap, "force_undefined": command.force_undefined + inputs.undefined, "force_export": command.force_export}
    for key, words in lists.items():
        if words:
            yield f',"{key}":{names(words)}'
    if command.defsym:
        yield ',"defsym":' + redirects(command.defsym)
    asked = set().union(*(entry.table.asked for entry in inputs.entries))
    defined = set().union(*(entry.table.defined for entry in inputs.entries))
    symbols = linker_symbols(output, command.position_independent, asked - defined)
    if symbols:
        yield ',"linker_symbols":' + json.dumps(symbols, separators=(",", ":"))
    sections = sorted(set().union(*(entry.table.custom_sections for entry in inputs.entries)))
    if sections:
        yield ',"custom_sections":[' + ",".join(json_of(name) for name in sections) + "]"
    for key, script in {"version_script": command.version_script, "export_list": command.export_list}.items():
        if script is not None:
            yield f',"{key}":{json_of(script)}'
    if command.lenient_scripts:
        yield ',"script_profile":2'
    if command.soname is not None:
        yield ',"soname":' + json_of(os.fsencode(command.soname))
    retained = Retained(command, inputs, output) if command.collects else None
    yield ',"objects":['
    for place, entry in enumerate(inputs.entries):
        yield (",\n" if place else "\n") + object_json(entry, retained)
    yield "]"
    if inputs.scripts:
        yield ',"scripts":[' + ",".join(script_json(script) for script in inputs.scripts) + "]"
    yield "}\n"

#!/usr/bin/env python3
"""Writes theorems of link_rules_worlds that a link of a manifest answers what is expected of it. See README.md."""
import argparse
import os
import re
import sys
import tempfile

import manifests
import terms

HERE = os.path.dirname(os.path.abspath(__file__))
CRATE = os.path.join(HERE, "..", "crates", "link_rules_worlds")

# each module, the file of its worlds, and its first line
MODULES = [
    ("Rows", "rows.jsonl", "Worked examples: small worlds of objects alone, and what a link of each answers."),
    ("ScriptRows", "script_rows.jsonl",
     "Worked examples: small worlds with scripts, lists, wraps and other options, and what a link of each answers."),
    ("GuardRows", "guard_rows.jsonl", "Worked examples: small worlds that each tell one reading of a rule from another."),
    ("BatchRows", "batch_rows.jsonl", "Worked examples: small worlds of several batches, and what a link of each answers."),
    ("Worlds", "worlds.jsonl", "Generated worlds, and what an independent program answers to each."),
    ("BatchWorlds", "batch_worlds.jsonl", "Generated worlds of several batches, and what an independent program answers to each."),
]

# how long a module of worlds may be, but for its first lines; a longer one is cut into numbered ones
MODULE_LINES = 740

# what the checker opens to compute texts, and to read scripts
TEXT_WORDS = ["is_utf8", "chars", "digits", "encode", "flags_text", "flag_table"]
SCRIPT_WORDS = ["macho_matcher", "line_matcher", "macho_list", "parent_at", "named_at", "versions_at", "body_turn",
                "pieces_at", "body_at", "forced_token", "forced_name", "list_turn", "gnu_entries", "gnu_list", "grow",
                "trimmed", "glob_at", "matcher_of", "token_at", "anonymous", "script_at", "language_at", "extern_text",
                "inner_extern", "block_turn", "block_at", "skip", "extern_at", "entry_at", "tokens_of", "does_match",
                "glob_of"]

# ---- worlds

def read(name, manifest, expected):
    """the manifest of a world, where a theorem can be written of it"""
    try:
        if expected.startswith(b"error: manifest: "):
            raise manifests.Refused("a manifest that is not read has no theorem")
        if not expected.endswith(b"\n"):
            raise manifests.Refused("what is expected ends with no line feed")
        return manifests.read(manifest)
    except manifests.Refused as fault:
        sys.exit("%s: %s" % (name, fault))


def pairs_of(path):
    """(name, what it shows, manifest, expected) of a folder of NAME.json and NAME.out, or of a stream with one object a line"""
    if path != "-" and os.path.isdir(path):
        for file in sorted(f for f in os.listdir(path) if f.endswith(".json")):
            with open(os.path.join(path, file), "rb") as m, open(os.path.join(path, file[:-5] + ".out"), "rb") as out:
                yield file[:-5], None, tree_of(file[:-5], m.read()), out.read()
        return
    with sys.stdin if path == "-" else open(path, encoding="utf-8") as stream:
        for i, line in enumerate(stream):
            if line.strip():
                pair = tree_of("%s:%d" % (os.path.basename(path), i + 1), line)
                unknown = set(pair) - {"name", "shows", "manifest", "expected"}
                if unknown or not {"name", "manifest", "expected"} <= set(pair):
                    sys.exit("%s:%d: expected the keys name, manifest and expected, perhaps shows" % (os.path.basename(path), i + 1))
                yield pair["name"], pair.get("shows"), pair["manifest"], pair["expected"].encode()


def tree_of(name, data):
    try:
        return manifests.tree_of(data)
    except (ValueError, manifests.Refused) as fault:
        sys.exit("%s: %s" % (name, fault))


def reads_scripts(m):
    return (m["version_script"] is not None or m["export_list"] is not None or bool(m["force_export"])
            or any(s["version"] is not None for b in [m] + m["batches"] for s in b["scripts"]))


# ---- modules

def imports(uses, body):
    """the `use` lines of which something stands in the body"""
    body = re.sub(r"--.*", "", re.sub(r'"(\\.|[^"\\])*"', "", body))
    words = set(re.findall(r"[^\s(){};,.]+", body))
    lines = []
    for module, items in uses:
        found = [item for item in items if item.split(" as ")[-1].strip("◌").strip() in words or item in ("◌∷◌", "[]") and item.strip("◌") in body]
        if found:
            lines.append("use %s.{%s}" % (module, ", ".join(found)))
    return "\n".join(lines) + "\n"


INPUT = "Rattle.link_input.specs.declared."
WORLD_USES = [
    ("Rattle.std.specs.Prelude", ["List", "[]", "◌∷◌", "true", "false", "Some", "None", "codes", "◌++◌"]),
    ("Rattle.link_flags.specs.declared.visibility.Visibility.TheVariants", ["Default", "Protected", "Hidden"]),
    (INPUT + "symbol_entry.Place.TheVariants", ["Undefined", "Absolute", "Common", "Section"]),
    (INPUT + "symbol_entry.SymbolBinding.TheVariants", ["Local", "Global", "Weak", "Unique"]),
    (INPUT + "symbol_entry.SymbolKind.TheVariants", ["Plain", "Func", "Ifunc", "Tls"]),
    (INPUT + "options.OutputKind.TheVariants", ["StaticExecutable", "DynamicExecutable", "SharedObject", "Partial"]),
    (INPUT + "internal_symbols.RedirectKind.TheVariants", ["DefSym", "Script", "Provide"]),
    (INPUT + "internal_symbols.SymbolPlacement.TheVariants",
     ["SectionStart", "SectionEnd", "TlsEnd", "SectionGroupEnd", "LoadBaseAddress", "PlatformSpecific"]),
    ("Rattle.link_input.specs.Defaults", ["default_options"]),
    ("Rattle.link_rules.specs.Rules", ["elf_like", "mach_like"]),
    ("Rattle.link_rules.specs.World", ["world_of"]),
    ("Rattle.link_rules.specs.Building", ["undemangled", "copies", "entry", "null_entry", "refers", "defines", "group", "file", "object", "member",
                                          "shared", "internal", "redirect", "linker_script", "stub", "texts", "of_objects"]),
    ("Rattle.link_rules_worlds.specs.Computing", ["Case", "report", "refusal"]),
]
SYNTAX = "Rattle.link_script_syntax.specs."
PROOF_USES = [
    ("Rattle.std.proofs.Common", ["refl"]),
    ("Rattle.std.specs.Str", ["is_utf8", "chars"]),
    ("Rattle.std.specs.Fmt", ["digits"]),
    ("lib.Utf8", ["encode"]),
    ("Rattle.link_flags.specs.FlagTable", ["flag_table"]),
    ("Rattle.link_flags.specs.FlagText", ["flags_text"]),
    ("Rattle.link_glob.specs.Reading", ["tokens_of"]),
    ("Rattle.link_glob.specs.Glob", ["does_match"]),
    ("Rattle.link_glob.specs.Compile", ["glob_of"]),
    (SYNTAX + "MachoList", ["macho_matcher", "line_matcher", "macho_list"]),
    (SYNTAX + "Named", ["parent_at", "named_at", "versions_at"]),
    (SYNTAX + "Body", ["body_turn", "pieces_at", "body_at"]),
    (SYNTAX + "ForcedName", ["forced_token", "forced_name"]),
    (SYNTAX + "GnuList", ["list_turn", "gnu_entries", "gnu_list"]),
    (SYNTAX + "Many", ["grow"]),
    (SYNTAX + "Token", ["trimmed", "glob_at", "matcher_of", "token_at"]),
    (SYNTAX + "Script", ["anonymous", "script_at"]),
    (SYNTAX + "Block", ["language_at", "extern_text", "inner_extern", "block_turn", "block_at"]),
    (SYNTAX + "Skip", ["skip"]),
    (SYNTAX + "Entry", ["extern_at", "entry_at"]),
    ("Rattle.link_rules_worlds.specs.Computing", ["IsAnswered", "AreAnswered"]),
    ("Rattle.link_rules_worlds.proofs.Computed", ["answered", "also"]),
]


def module(head, uses, body):
    return "%s%s\n%s" % ("".join("-- %s\n" % line for line in head), uses, body)


def wrapped(words, between, indent):
    """words in lines"""
    lines, line = [], " " * indent
    for i, word in enumerate(words):
        if len(line) + len(word) > terms.WIDTH:
            lines.append(line.rstrip())
            line = " " * indent
        line += word + (between if i + 1 < len(words) else "")
    return "\n".join(lines + [line.rstrip()])


def case_of(pair):
    """the definition of a world with its answer, and the theorem about it"""
    world, shows, tree, expected = pair
    manifest = read(world, tree, expected)
    words = TEXT_WORDS + (SCRIPT_WORDS if reads_scripts(manifest) else [])
    return ("%sabbrev pub %s : Case\n%s = record {\n  world = %s;\n  outcome = %s;\n}\n"
            % ("-- %s\n" % shows if shows else "", world, world, terms.world(manifest), terms.outcome(expected)),
            "pub %s-is : IsAnswered its.%s\nunfolding\n%s\n%s-is = answered its.%s refl refl\n" % (world, world, wrapped(words, " ", 4), world, world))


def parts_of(names, cases):
    """the worlds in parts, so that no module is longer than MODULE_LINES"""
    parts, lines = [], MODULE_LINES
    for name, case in zip(names, cases):
        count = 1 + max(text.count("\n") for text in case)
        if lines + count > MODULE_LINES:
            parts, lines = parts + [[]], 0
        parts[-1].append((name, case))
        lines += count
    return parts


def modules_of(name, head, pairs):
    """the texts of the definitions and of the proofs by the names of their modules: one, or a list of the worlds that stand in numbered ones"""
    pairs = list(pairs)
    names = [pair[0] for pair in pairs]
    for i, world in enumerate(names):
        if not re.fullmatch("[a-z][a-z0-9_]*", world) or world in names[:i]:
            sys.exit("%s: expected a name of its own, of small letters, digits and _" % world)
    parts = parts_of(names, [case_of(pair) for pair in pairs])
    list_case = "unfoldable pub all_cases : List Case\nall_cases =\n%s\n" % wrapped(names + ["[]"], " ∷ ", 4)
    list_proof = ("pub all_cases-are : AreAnswered its.all_cases\nunfolding its.all_cases\nall_cases-are =\n    let are : Unit {0} = tt in\n%s    are\n"
                  % "".join("    let are = also %s-is are in\n" % n for n in reversed(names)))
    if len(parts) == 1:
        return {name: texts_of(name, head, [case for _, case in parts[0]] + [(list_case, list_proof)])}
    modules = {"%s%d" % (name, i + 1): part for i, part in enumerate(parts)}
    uses = [tuple("use Rattle.link_rules_worlds.%s.%s.{%s}\n" % (folder, module, ", ".join(world + end for world, _ in part))
                  for folder, end in (("specs", ""), ("proofs", "-is"))) for module, part in modules.items()]
    texts = {module: texts_of(module, head, [case for _, case in part]) for module, part in modules.items()}
    texts[name] = texts_of(name, head, [(list_case, list_proof)], uses)
    return texts


def texts_of(name, head, cases, uses=()):
    """the texts of a module's definitions and of its proofs"""
    specs, proofs = ("".join(use[i] for use in uses) for i in range(2))
    case, proof = ("\n".join(texts[i] for texts in cases) for i in range(2))
    return (module(head, imports(WORLD_USES, case) + specs, case),
            module(head, imports(PROOF_USES, proof) + proofs + "use Rattle.link_rules_worlds.specs.%s as its\n" % name, proof))


def write_all(folder):
    """every module, under this folder"""
    for name, file, about in MODULES:
        write(folder, name, [about, "Written by `tools/worlds.py` from `tools/%s`." % file], pairs_of(os.path.join(HERE, file)))


def write(folder, name, head, pairs):
    for module_name, texts in modules_of(name, head, pairs).items():
        for part, text in zip(("specs", "proofs"), texts):
            os.makedirs(os.path.join(folder, part), exist_ok=True)
            with open(os.path.join(folder, part, module_name + ".antt"), "w", encoding="utf-8") as out:
                out.write(text)


def files_of(folder):
    """the files of such modules, numbered or not, that stand in a crate"""
    names = "|".join(name for name, _, _ in MODULES)
    return {os.path.join(part, file) for part in ("specs", "proofs") for file in os.listdir(os.path.join(folder, part))
            if re.fullmatch(r"(%s)\d*\.antt" % names, file)}


def content(path):
    """the bytes of a file, or None"""
    if not os.path.exists(path):
        return None
    with open(path, "rb") as file:
        return file.read()


def check():
    """the names of the files that stand otherwise than they would be written"""
    with tempfile.TemporaryDirectory() as folder:
        write_all(folder)
        files = files_of(folder) | files_of(CRATE)
        return [file for file in sorted(files) if content(os.path.join(folder, file)) != content(os.path.join(CRATE, file))]


def main():
    parser = argparse.ArgumentParser(description=__doc__)
    parser.add_argument("module", nargs="?", help="one module's name; none: all that stand")
    parser.add_argument("about", nargs="?", help="its first line")
    parser.add_argument("pairs", nargs="?", help="a folder of NAME.json and NAME.out, or a file (- is standard input) of one JSON object a line")
    parser.add_argument("--folder", default=CRATE, help="the crate, in whose specs/ and proofs/ is written")
    parser.add_argument("--check", action="store_true", help="compares with the modules that stand, and writes nothing")
    options = parser.parse_args()
    if options.check:
        differing = check()
        for file in differing:
            print("crates/link_rules_worlds/%s is not what tools/worlds.py writes" % file)
        sys.exit(1 if differing else 0)
    if options.module is None:
        write_all(options.folder)
    elif options.pairs is None:
        parser.error("a module is given with its first line and its worlds")
    else:
        head = [options.about, "Written by `tools/worlds.py %s .. %s`." % (options.module, os.path.basename(options.pairs.rstrip("/")))]
        write(options.folder, options.module, head, pairs_of(options.pairs))


if __name__ == "__main__":
    main()

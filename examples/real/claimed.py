#!/usr/bin/env python3
"""Checks that the answers of real links hold as claims, and that wrong claims of them fail.

    python3 examples/real/claimed.py [PROGRAM]

Links what `check.py` links; PROGRAM is as there. `check` has to say that the claim holds which `tools/claim` makes of the
lines of `link 2` and `why 2`. Then one thing in the claim is changed, and it has to say which part fails. The changes, of
which each link is given those that it has room for:

- one more: an object that isn't loaded is claimed to be, for the reason of a loaded one;
- one less: a loaded object is missing, one of the greatest rank, so that no other one is loaded for it;
- its rank: such an object has the rank of the one that asks for it;
- its group: another group is kept than the one that is, where there is one with the same signature;
- its entry: a symbol that points to another one points to itself.

Where no compiler is there, one line says so. A claim that is judged otherwise ends with status 1, and so does a change that
no link has room for.
"""
import json
import pathlib
import shlex
import shutil
import subprocess
import sys
import tempfile

# `check` makes the tools' modules known, so it comes first.
import check
from claimed.main import claimed
from claimed.symbols import Symbols
from explained.faults import Fault as Unreadable
from linker_inputs.faults import Warnings
from linker_inputs.main import manifest_of, words_of_compiler


def deepest(claim):
    """A claimed object of the greatest rank, for which no other one is loaded."""
    return max(claim["loaded"], key=lambda one: one["rank"])


def one_more(claim, symbols):
    """An object that isn't loaded is claimed to be."""
    numbers = {one["object"] for one in claim["loaded"]}
    for number in range(len(symbols.objects)):
        if number not in numbers:
            loaded = [*claim["loaded"], {**deepest(claim), "object": number}]
            return {**claim, "loaded": sorted(loaded, key=lambda one: one["object"])}, "fails loaded"
    return None


def one_less(claim, _):
    """A loaded object isn't claimed."""
    missing = deepest(claim)
    return {**claim, "loaded": [one for one in claim["loaded"] if one is not missing]}, "fails loaded"


def its_rank(claim, symbols):
    """An object that a reference loads has the rank of the reference's own object."""
    changed = deepest(claim)
    if changed["by"] is None:
        return None
    ranks = {one["object"]: one["rank"] for one in claim["loaded"]}
    other = {**changed, "rank": ranks[symbols.owners[changed["by"]]]}
    return {**claim, "loaded": [other if one is changed else one for one in claim["loaded"]]}, "fails loaded"


def its_group(claim, symbols):
    """Another group is kept in the place of one: of a loaded object and with the same signature, where there is such a one."""
    loaded = {one["object"] for one in claim["loaded"]}
    kept = [(one["object"], one["group"]) for one in claim["kept"]]
    groups = {(number, group): name for number, names in enumerate(symbols.signatures) for group, name in enumerate(names)}
    others = sorted(groups.keys() - set(kept), key=lambda group: (group[0] in loaded, group))
    if not kept or not others:
        return None
    rivals = {groups[group]: group for group in others}
    old = next((group for group in kept if groups[group] in rivals), kept[0])
    changed = sorted([*(group for group in kept if group != old), rivals.get(groups[old], others[0])])
    return {**claim, "kept": [{"object": number, "group": group} for number, group in changed]}, "fails kept"


def its_entry(claim, _):
    """A symbol that points to another one points to itself."""
    table = claim["table"]
    for symbol in reversed(range(len(table))):
        if table[symbol] not in (0, symbol):
            return {**claim, "table": [*table[:symbol], symbol, *table[symbol + 1:]]}, f"fails table {symbol}"
    return None


CHANGES = {"one more": one_more, "one less": one_less, "its rank": its_rank, "its group": its_group, "its entry": its_entry}


def ran(program, words, written):
    """The status of the program, and what it writes."""
    done = subprocess.run([*program, *words], input=written, capture_output=True)
    return done.returncode, done.stdout


def claim_of(program, written):
    """The claim that the program's own lines of a manifest make, and what they contradict one another about, if anything."""
    with tempfile.TemporaryDirectory() as folder:
        paths = [pathlib.Path(folder) / name for name in ("manifest", "report", "reasons")]
        paths[0].write_bytes(written)
        for path, command in zip(paths[1:], ("link", "why")):
            status, lines = ran(program, [command, "2"], written)
            if status != 0:
                raise Unreadable(f"the program ends with {status}: {lines.decode(errors='replace').strip()[:2000]}")
            path.write_bytes(lines)
        with_claim, told = claimed(*paths)
    return json.loads(with_claim)["claim"], told


def fault_of(program, written, claim, due):
    """What the program says of a manifest with a claim, where that isn't what is due."""
    with_claim = written.rstrip().removesuffix(b"}") + b',"claim":' + json.dumps(claim).encode() + b"}"
    status, line = ran(program, ["check"], with_claim)
    if (status, line) == (0 if due == "holds" else 7, f"{due}\n".encode()):
        return None
    return f"not {due!r}, but status {status} and {line.decode(errors='replace').strip()[:2000]!r}"


def check_link(program, name, words, tried):
    """Checks the claims of one link, counts which changes were tried, and tells what differs; answers whether nothing does."""
    written = manifest_of(words_of_compiler(shlex.split(words.format(c=check.HERE / "c"))), Warnings())
    try:
        claim, told = claim_of(program, written)
    except Unreadable as fault:
        print(f"{name}: {fault}", file=sys.stderr)
        return False
    found = [f"the lines contradict one another about {one}" for one in told]
    symbols, claims = Symbols(json.loads(written)), {"the answer": (claim, "holds")}
    for kind, change in CHANGES.items():
        changed = change(claim, symbols)
        if changed:
            claims[kind] = changed
            tried[kind] += 1
    for kind, (one, due) in claims.items():
        fault = fault_of(program, written, one, due)
        found += [f"{kind}: {fault}"] if fault else []
    sizes = f"{len(claim['loaded'])} objects, {len(claim['kept'])} groups and {len(claim['table'])} symbols claimed"
    print(f"{name}: {sizes}; {len(claims) - 1} changes tried", flush=True)
    for line in found:
        print(f"{name}: {line}", file=sys.stderr)
    return not found


def main():
    if sys.argv[1:] in (["-h"], ["--help"]):
        print(__doc__.strip())
        return 0
    program = check.program_of(sys.argv[1:])
    missing = [tool for tool in ("cc", "c++", "ar") if shutil.which(tool) is None]
    if missing:
        print(f"examples/real: not run, since there is no {' and no '.join(missing)}")
        return 0
    tried = dict.fromkeys(CHANGES, 0)
    results = check.where_built(lambda: [check_link(program, name, words, tried) for name, words, _, _ in check.links_at_hand()])
    counts = ", ".join(f"{count} {kind}" for kind, count in tried.items())
    print(f"examples/real: {len(results)} links claimed, {results.count(False)} differ; changes tried: {counts}")
    untried = [kind for kind, count in tried.items() if not count]
    for kind in untried:
        print(f"{kind}: no link has room for this change", file=sys.stderr)
    return 1 if False in results or untried else 0


if __name__ == "__main__":
    sys.exit(main())

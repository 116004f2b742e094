"""Makes a claim of an answer, which `check` then judges.

MANIFEST is a link. LINK_LINES and WHY_LINES are files with what `link` and `why` write of it, wherever these lines come from.
Printed is the manifest with the claim that they make: why each object is loaded, which section groups are kept, and to which
symbol each one points. Lines that contradict one another make a claim that can't hold, and a line on standard error tells where.
"""

import argparse
import itertools
import json
import sys

from explained.faults import Fault

from .lines import Reasons, Report
from .symbols import read_manifest
from .table import NOWHERE, Table

EXAMPLE = """example:
  ./wolzhyke link 1 < m.json > m.report
  ./wolzhyke why 1 < m.json > m.why
  tools/claim m.json m.report m.why | ./wolzhyke check"""


def ranks(reasons):
    """The steps from an object that is loaded without a reference to each other one; too few where the reasons go round."""
    by = {number: of for number, _, of in reasons}
    found = {}
    for number in by:
        chain = []
        while number in by and number not in found:
            found[number] = -1
            chain.append(number)
            number = by[number]
        rank = found.get(number, -1)
        for number in reversed(chain):
            rank += 1
            found[number] = rank
    return found


def claimed_objects(symbols, report, reasons):
    """The loaded objects of a claim, and those about which the lines contradict one another."""
    rank = ranks(reasons.loaded)
    found, doubtful = [], []
    for number, by, of in reasons.loaded:
        if by is not None and symbols.owners[by] != of:
            by = NOWHERE
            doubtful.append(number)
        found.append({"object": number, "rank": rank[number], "by": by})
    numbers = [number for number, _, _ in reasons.loaded]
    for one, other in itertools.zip_longest(report.loaded, numbers):
        if one != other:
            doubtful.append(other if one is None else one)
            found.append({"object": doubtful[-1], "rank": 0, "by": NOWHERE})
            break
    return found, doubtful


def claim_of(symbols, report, reasons):
    """The claim that the lines make, and what they contradict one another about, if anything."""
    loaded, objects = claimed_objects(symbols, report, reasons)
    table = Table(symbols, report, reasons)
    for symbol in table.doubtful:
        table.steps[symbol] = NOWHERE
    claim = {"loaded": loaded, "kept": [{"object": number, "group": group} for number, group in report.kept], "table": table.steps}
    told = [f"object {number}" for number in objects] + [f"symbol {symbol}" for symbol in sorted(table.doubtful)]
    return claim, told


def claimed(manifest_path, report_path, reasons_path):
    """The bytes of a manifest with the claim of two files of lines, and what these contradict one another about."""
    manifest, symbols = read_manifest(manifest_path)
    report = Report(report_path, symbols)
    manifest["claim"], told = claim_of(symbols, report, Reasons(reasons_path, symbols))
    return (json.dumps(manifest, ensure_ascii=False, separators=(",", ":")) + "\n").encode(errors="surrogatepass"), told


def main(words):
    """Runs the tool, and answers its status."""
    parser = argparse.ArgumentParser("claim", description=__doc__, epilog=EXAMPLE, formatter_class=argparse.RawDescriptionHelpFormatter)
    parser.add_argument("manifest", metavar="MANIFEST", help="a manifest without batches; a claim in it is replaced")
    parser.add_argument("report", metavar="LINK_LINES", help="what `link` writes of it")
    parser.add_argument("reasons", metavar="WHY_LINES", help="what `why` writes of it")
    given = parser.parse_args(words)
    try:
        written, told = claimed(given.manifest, given.report, given.reasons)
    except Fault as fault:
        print(f"error: {fault}", file=sys.stderr)
        return 2
    if told:
        print(f"the lines contradict one another about {', '.join(told[:9])}{' ..' if len(told) > 9 else ''}", file=sys.stderr)
    sys.stdout.buffer.write(written)
    return 0

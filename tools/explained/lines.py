"""The lines of `why`: why each object is loaded, and which of several definitions of a name counts."""

import dataclasses
import re

from .faults import Fault

# Objects and symbols have numbers below 2^32.
NUMBER = "(0|[1-9][0-9]{0,9})"
CASES = ("strong", "common", "weak", "surviving", "loaded", "first")
REQUIRED = re.compile(f"why {NUMBER} required")
ROOT = re.compile(f"why {NUMBER} root (.+)")
REFERENCE = re.compile(f"why {NUMBER} symbol {NUMBER} of {NUMBER}")
RULE = re.compile(f"rule (.*) {NUMBER} ({'|'.join(CASES)}) {NUMBER}((?: {NUMBER})+)")


@dataclasses.dataclass(frozen=True)
class Required:
    """The object is loaded in any case."""


@dataclasses.dataclass(frozen=True)
class Root:
    """The object is loaded for a root name, as the entry point is."""

    name: str


@dataclasses.dataclass(frozen=True)
class Reference:
    """A reference of another object asks for it: the id of the reference, and the number of that object."""

    symbol: int
    by: int


def read_reasons(text):
    """The reason of each loaded object by its number, in order. The lines of choices are read too, and left out."""
    reasons, last, has_rule = {}, -1, False
    lines = text.split("\n")
    if lines.pop():
        raise Fault(f"line {len(lines) + 1}: the text ends inside it")
    for place, line in enumerate(lines, 1):
        if RULE.fullmatch(line):
            has_rule = True
            continue
        number, reason = reason_of(line, place)
        if has_rule:
            raise Fault(f"line {place}: a reason behind the choices: {line}")
        if number <= last:
            raise Fault(f"line {place}: object {number} comes behind object {last}")
        reasons[number], last = reason, number
    refuse_loose_ends(reasons)
    return reasons


def reason_of(line, place):
    """The object and the reason of a line."""
    if found := REQUIRED.fullmatch(line):
        return int(found[1]), Required()
    if found := ROOT.fullmatch(line):
        return int(found[1]), Root(found[2])
    if found := REFERENCE.fullmatch(line):
        return int(found[1]), Reference(int(found[2]), int(found[3]))
    raise Fault(f"line {place}: no line that `why` writes: {line}")


def refuse_loose_ends(reasons):
    """Each object is reached from one that is loaded without a reference."""
    reached = set()
    for number in reasons:
        chain = set()
        while number not in reached and isinstance(reason := reasons[number], Reference):
            if reason.by not in reasons:
                raise Fault(f"object {number} is loaded by object {reason.by}, which has no line")
            chain.add(number)
            if reason.by in chain:
                raise Fault(f"nothing that is loaded without a reference leads to object {number}")
            number = reason.by
        reached.update(chain, [number])


def chain_to(reasons, number):
    """The objects from one that is loaded without a reference to this one, each asked for by the one before."""
    chain = [number]
    while isinstance(reason := reasons[chain[-1]], Reference):
        chain.append(reason.by)
    return chain[::-1]

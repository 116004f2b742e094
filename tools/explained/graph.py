"""Pictures of why objects are loaded, as Graphviz reads them."""

import argparse
import re
import sys

from .faults import Fault
from .lines import NUMBER, Reference, Root, chain_to, read_reasons
from .names import read_names

HELP = """From what `why` writes to a picture of it.

The lines of `why` are read from standard input. On standard output comes a graph in the language of Graphviz: a node for each
loaded object, and an arrow from an object to each that one of its references loads, with the name of the reference. What is
loaded without a reference has a double border, and says so."""
EXAMPLE = """example:
  ./wolzhyke why < link.json | tools/why_graph --names link.json --of scale.o | dot -Tsvg > why.svg"""


def quoted(text):
    """A text as Graphviz prints it: there a backslash and an ampersand begin something else, and what can't be printed is told by its number."""
    text = text.replace("\\", "\\\\").replace('"', '\\"').replace("&", "&amp;").replace("\n", "\\n")
    return '"' + "".join(letter if letter.isprintable() or letter == " " else f"\\\\x{ord(letter):02x}" for letter in text) + '"'


def node(number, reason, names):
    """The line of an object."""
    parts = [f"{number} {names.of_object(number)}" if names else f"object {number}"]
    if isinstance(reason, Reference):
        return f"    {number} [label = {quoted(parts[0])}];"
    parts.append(f"root {reason.name}" if isinstance(reason, Root) else "required")
    return f"    {number} [label = {quoted(chr(10).join(parts))}, peripheries = 2];"


def edge(number, reason, names):
    """The line of a reference that loads an object."""
    name = names.of_symbol(reason.symbol, reason.by) if names else f"symbol {reason.symbol}"
    return f"    {reason.by} -> {number} [label = {quoted(name)}];"


def graph(reasons, names=None):
    """The graph of some reasons, each object by its number."""
    lines = ["digraph why {", "    rankdir = LR;", "    node [shape = box];"]
    lines += [node(number, reason, names) for number, reason in reasons.items()]
    lines += [edge(number, reason, names) for number, reason in reasons.items() if isinstance(reason, Reference)]
    return "\n".join([*lines, "}", ""])


def found(reasons, names, word):
    """The loaded object that a word tells: by its number, by its name, or by a part of the name that no other has."""
    if re.fullmatch(NUMBER, word):
        if int(word) not in reasons:
            raise Fault(f"object {word} isn't loaded")
        return int(word)
    if names is None:
        raise Fault(f"{word} is no number, and no names are given (--names)")
    named = {number: names.of_object(number) for number in reasons}
    numbers = [number for number, name in named.items() if name == word] or [number for number, name in named.items() if word in name]
    if not numbers:
        raise Fault(f"no object {word} is loaded")
    if len(numbers) > 1:
        raise Fault(f"several loaded objects are meant by {word}: {', '.join(map(str, numbers[:9]))}{' ..' if len(numbers) > 9 else ''}")
    return numbers[0]


def picture(text, path, word):
    """The graph of the lines of `why`: of all of them, or of those that lead to the object that a word tells."""
    reasons = read_reasons(text)
    names = read_names(path) if path else None
    if word is not None:
        reasons = {number: reasons[number] for number in chain_to(reasons, found(reasons, names, word))}
    return graph(reasons, names)


def text_of_input():
    """What stands on standard input."""
    try:
        return sys.stdin.buffer.read().decode()
    except UnicodeDecodeError:
        raise Fault("standard input is no text") from None


def main(words):
    """Runs the tool, and answers its status."""
    parser = argparse.ArgumentParser("why_graph", description=HELP, epilog=EXAMPLE, formatter_class=argparse.RawDescriptionHelpFormatter)
    parser.add_argument("--names", metavar="MANIFEST", help="the manifest that `why` read; without it objects and symbols have numbers alone")
    parser.add_argument("--of", metavar="OBJECT", help="only what leads to this object: a number, a name, or a part of just one name")
    given = parser.parse_args(words)
    try:
        written = picture(text_of_input(), given.names, given.of)
    except Fault as fault:
        print(f"error: {fault}", file=sys.stderr)
        return 1
    sys.stdout.buffer.write(written.encode())
    return 0

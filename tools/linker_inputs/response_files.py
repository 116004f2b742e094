"""Response files: `@FILE` among the words of a linker or a compiler stands for the words in the file."""

import os
import re

from .faults import Fault

DEEPEST = 16
# One word: plain characters, a backslash with the character behind it, and quoted parts. A quote that isn't closed reaches to the end.
WORD = re.compile(r"""(?:[^ \t\n\v\f\r"'\\]+|\\.?|"(?:[^"\\]+|\\.?)*"?|'(?:[^'\\]+|\\.?)*'?)+""", re.S)
QUOTED = re.compile(r"""\\(.?)|"((?:[^"\\]+|\\.?)*)"?|'((?:[^'\\]+|\\.?)*)'?""", re.S)
MARKS = re.compile(r"""["'\\]""")
ESCAPED = re.compile(r"\\(.?)", re.S)


def plain(word):
    """A word without its quotes; a backslash stands for the character behind it, between quotes of either kind too."""
    if not MARKS.search(word):
        return word
    return QUOTED.sub(lambda part: part[1] if part[1] is not None else ESCAPED.sub(r"\1", part[2] or part[3] or ""), word)


def split(text):
    """The words of a text, by the rules of GCC, GNU ld and lld."""
    return [plain(word) for word in WORD.findall(text)]


def joined(words):
    """A text whose words are the given ones."""
    return "".join('"' + word.replace("\\", "\\\\").replace('"', '\\"') + '"\n' for word in words)


def expanded(words, depth=0):
    """The words, with those of response files in place of `@FILE`. A file that can't be read leaves the word as it is."""
    for word in words:
        text = text_of(word[1:]) if word.startswith("@") else None
        if text is None:
            yield word
        elif depth == DEEPEST:
            raise Fault(word, "is a response file in response files too deep")
        else:
            yield from expanded(split(text), depth + 1)


def text_of(path):
    """What a response file holds, or None where it can't be read. A zero byte ends it."""
    try:
        with open(path, "rb") as file:
            return os.fsdecode(file.read().partition(b"\0")[0])
    except (OSError, ValueError):
        return None

"""What the `KEEP` of a linker script names: sections of some files, by patterns of both names."""

import fnmatch
import re

COMMENT = re.compile(r"/\*.*?\*/", re.S)
EXCLUDED = re.compile(r"EXCLUDE_FILE\s*\(([^()]*)\)")
# Words around a pattern that say in which order what it names comes, or which flags it has.
WRAPPED = re.compile(r"\b(?:SORT\w*|REVERSE)\s*\(([^()]*)\)")
FLAGS = re.compile(r"\bINPUT_SECTION_FLAGS\s*\([^()]*\)")
PARTS = re.compile(r"\s*([^()]*?)\s*(?:\((.*)\))?\s*\Z", re.S)


class Keep:
    """The patterns of one `KEEP`: files, and sections with the files that are excluded for each."""

    def __init__(self, text):
        text = FLAGS.sub(" ", COMMENT.sub(" ", text))
        text = EXCLUDED.sub(lambda found: " !" + "!".join(found[1].split()) + " ", text)
        while WRAPPED.search(text):
            text = WRAPPED.sub(r" \1 ", text)
        outer, inner = PARTS.match(text).groups() if PARTS.match(text) else (text, "")
        words = outer.split()
        excluded = [pattern for word in words if word[0] == "!" for pattern in word[1:].split("!")]
        self.files = [word for word in words if word[0] != "!"]
        self.sections, others = [], []
        for word in ("*" if inner is None else inner.replace(",", " ")).split():
            if word[0] == "!":
                others = word[1:].split("!")
            else:
                self.sections.append((word.strip('"'), excluded + others))
                others = []

    def matches(self, file, section, excludes=True):
        """Whether a section of a file is kept, by both names; `excludes` is false where excluded files don't count."""
        if not any(means_file(pattern, file) for pattern in self.files):
            return False
        return any(
            fnmatch.fnmatchcase(section, pattern) and not (excludes and any(means_file(other, file) for other in excluded))
            for pattern, excluded in self.sections
        )


def means_file(pattern, file):
    """Whether a pattern means a file; the name of an archive's member is `ARCHIVE(MEMBER)`.

    `ARCHIVE:MEMBER` means a member, `ARCHIVE:` each member, and `:FILE` a file of no archive.
    """
    archive, mark, member = file.removesuffix(")").rpartition("(")
    if not mark:
        return fnmatch.fnmatchcase(file, pattern.removeprefix(":"))
    if ":" not in pattern:
        return fnmatch.fnmatchcase(member, pattern)
    wanted, _, part = pattern.partition(":")
    return bool(wanted) and fnmatch.fnmatchcase(archive, wanted) and fnmatch.fnmatchcase(member, part or "*")

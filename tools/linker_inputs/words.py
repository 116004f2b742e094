"""The words of a linker: options and inputs, in the order in which they stand."""

from .faults import Fault
from .linker_script import expression_names
from .response_files import expanded


class State:
    """What the options that stand before an input say of it."""

    def __init__(self, shared=True, as_needed=False, whole_archive=False, lazy=False):
        self.shared = shared
        self.as_needed = as_needed
        self.whole_archive = whole_archive
        self.lazy = lazy

    def copy(self):
        """The same state, for an input that later options don't change."""
        return State(self.shared, self.as_needed, self.whole_archive, self.lazy)


class Command:
    """What the words ask for."""

    def __init__(self):
        self.inputs = []  # kind (`file`, `library` or `script`), name, state
        self.search = []
        self.system_root = ""
        self.output = None  # `shared` or `partial`, else an executable
        self.static = self.position_independent = self.no_interpreter = False
        self.entry = None
        self.allow_multiple = False
        self.wrap, self.force_undefined, self.force_export = [], [], []
        self.defsym = []  # name, targets
        self.version_script = self.export_list = self.soname = None
        self.lenient_scripts = False  # no word of a linker: the tool's own
        self.collects = False  # --gc-sections, and what changes which sections it keeps
        self.keeps_exported = self.exports_all = self.drops_named_sections = False
        self.first_call, self.last_call = "_init", "_fini"


# Words with a value, perhaps in the next word, that change nothing which a manifest tells.
SKIPPED_WITH_VALUE = set(
    """output o m I dynamic-linker rpath rpath-link plugin plugin-opt G f auxiliary F filter Map y trace-symbol
    assert audit depaudit P Y hash-style sort-section Ttext Tdata Tbss Ttext-segment Trodata-segment section-start
    oformat architecture A dependency-file""".split()
)
# Words without a value, or with one behind `=`, that change nothing which a manifest tells.
SKIPPED = set(
    """start-group end-group s strip-all S strip-debug x discard-all X discard-locals n nmagic
    N omagic no-omagic d dc dp t trace M print-map print-map-file cref eh-frame-hdr no-eh-frame-hdr build-id relax no-relax q
    emit-relocs EL EB no-undefined warn-common fatal-warnings no-fatal-warnings enable-new-dtags disable-new-dtags
    demangle no-demangle g O no-ld-generated-unwind-info ld-generated-unwind-info gdb-index color-diagnostics no-undefined-version
    undefined-version allow-shlib-undefined no-allow-shlib-undefined v V version verbose no-keep-memory reduce-memory-overheads
    stats sort-common no-warn-mismatch no-warnings warn-unresolved-symbols error-unresolved-symbols noinhibit-exec nostdlib
    check-sections no-check-sections traditional-format dynamic-list-cpp-new dynamic-list-cpp-typeinfo dynamic-list-data
    no-add-needed no-copy-dt-needed-entries no-rosegment rosegment no-icf threads no-threads perf time-trace warn-once
    no-define-common warn-shared-textrel warn-textrel warn-alternate-em fork no-fork no-print-gc-sections print-gc-sections
    no-mmap-output-file no-warn-rwx-segments warn-rwx-segments no-warn-execstack warn-execstack""".split()
)
# Words that change a link, or what it says of symbols, in a way that a manifest doesn't tell.
UNTOLD = {
    "exclude-libs": "symbols of archives stay exported",
    "Bsymbolic": "flags don't tell that symbols are bound inside the output",
    "Bsymbolic-functions": "flags don't tell that symbols are bound inside the output",
    "Bsymbolic-non-weak": "flags don't tell that symbols are bound inside the output",
    "Bsymbolic-non-weak-functions": "flags don't tell that symbols are bound inside the output",
    "default-symver": "symbols get no version by the name of the output",
    "copy-dt-needed-entries": "libraries that shared objects ask for aren't read",
    "add-needed": "libraries that shared objects ask for aren't read",
    "icf": "sections alike stay apart",
    "fortran-common": "a member is not loaded for a common symbol",
    "just-symbols": "its symbols aren't read",
    "R": "its symbols aren't read",
    "unresolved-symbols": "undefined names are always told",
    "discard-section": "its sections are kept",
    "retain-symbols-file": "no symbol is left out",
    "default-imported-symver": "references get no version",
}
UNTOLD_WITH_VALUE = {"exclude-libs", "just-symbols", "R", "retain-symbols-file", "unresolved-symbols", "discard-section"}
# Letters that may stand together with their value, as `-lz`.
LETTERS = set("olLeumTIhyzbAfFGYPOR")
SWITCHES = {
    "static": ("static", True), "no-dynamic-linker": ("no_interpreter", True),
    "pie": ("position_independent", True), "pic-executable": ("position_independent", True), "no-pie": ("position_independent", False),
    "shared": ("output", "shared"), "Bshareable": ("output", "shared"),
    "r": ("output", "partial"), "i": ("output", "partial"), "relocatable": ("output", "partial"), "Ur": ("output", "partial"),
    "allow-multiple-definition": ("allow_multiple", True), "no-allow-multiple-definition": ("allow_multiple", False),
    "gc-sections": ("collects", True), "no-gc-sections": ("collects", False),
    "gc-keep-exported": ("keeps_exported", True), "no-gc-keep-exported": ("keeps_exported", False),
    "export-dynamic": ("exports_all", True), "E": ("exports_all", True), "no-export-dynamic": ("exports_all", False),
}  # fmt: skip
STATES = {
    "static": ("shared", False), "Bstatic": ("shared", False), "dn": ("shared", False), "non_shared": ("shared", False),
    "Bdynamic": ("shared", True), "dy": ("shared", True), "call_shared": ("shared", True),
    "as-needed": ("as_needed", True), "no-as-needed": ("as_needed", False),
    "whole-archive": ("whole_archive", True), "no-whole-archive": ("whole_archive", False),
    "start-lib": ("lazy", True), "end-lib": ("lazy", False),
}  # fmt: skip


class WordReader:
    """Reads words one after another into a command."""

    def __init__(self, words, warnings):
        self.words = list(expanded(words))
        self.place = 0
        self.warnings = warnings
        self.command = Command()
        self.state = State()
        self.saved = []

    def read(self):
        """The command that all words make."""
        while self.place < len(self.words):
            word = self.words[self.place]
            self.place += 1
            if word.startswith("-") and len(word) > 1:
                self.option(word)
            else:
                self.command.inputs.append(("file", word, self.state.copy()))
        return self.command

    def option(self, word):
        """One option, with its value where it takes one."""
        if word in ("-(", "-)"):
            return
        name, mark, value = word.removeprefix("-").removeprefix("-").partition("=")
        if self.is_known(name) and (len(name) > 1 or not mark):
            self.named(name, value if mark else None, word)
        elif word[1] in LETTERS:
            self.named(word[1], word[2:], word)
        else:
            self.warnings.tell(word, "is unknown, and passed over")

    def is_known(self, name):
        """Whether an option has this name."""
        return any(name in kind for kind in (SKIPPED, SKIPPED_WITH_VALUE, UNTOLD, SWITCHES, STATES, VALUED, PLAIN))

    def named(self, name, value, word):
        """An option by its name; a value that isn't there is the next word where the option takes one."""
        takes_value = name in SKIPPED_WITH_VALUE or name in UNTOLD_WITH_VALUE or name in VALUED
        if takes_value and value is None:
            if self.place >= len(self.words):
                raise Fault(word, "wants a value")
            value = self.words[self.place]
            self.place += 1
        if name in SWITCHES:
            setattr(self.command, *SWITCHES[name])
        if name in STATES:
            setattr(self.state, *STATES[name])
        if name in UNTOLD and not (name == "icf" and value == "none"):
            self.warnings.tell(word, f"has no effect: {UNTOLD[name]}")
        if name in VALUED:
            VALUED[name](self, value)
        if name in PLAIN:
            PLAIN[name](self)

    def add_input(self, kind, value):
        """An input that an option names."""
        self.command.inputs.append((kind, value, self.state.copy()))

    def set_keyword(self, value):
        """A word behind `-z`."""
        if value == "muldefs":
            self.command.allow_multiple = True
        elif value in ("start-stop-gc", "nostart-stop-gc"):
            self.command.drops_named_sections = value == "start-stop-gc"

    def set_entry(self, value):
        """The entry point, where it is a name; an address is none."""
        self.command.entry = "" if value[:1].isdigit() else value

    def set_soname(self, value):
        """The name by which programs ask for the output; the last one counts."""
        self.command.soname = value

    def require(self, value):
        """A name that has to be defined. A manifest can ask for it, and no more."""
        self.command.force_undefined.append(value)
        self.warnings.tell(f"--require-defined {value}", "is read as -u: where nothing defines the name, the link isn't refused")

    def add_redirect(self, value):
        """`NAME=EXPRESSION`."""
        name, mark, expression = value.partition("=")
        if not name or not mark:
            raise Fault(f"--defsym {value}", "is no NAME=EXPRESSION")
        self.command.defsym.append((name, expression_names(expression)))

    def set_text(self, attribute, path, what):
        """A script of versions, or a list of names to be exported; a manifest has one each."""
        if getattr(self.command, attribute) is not None:
            raise Fault(path, f"is a second {what}, and a manifest has one")
        try:
            with open(path, "rb") as file:
                setattr(self.command, attribute, file.read())
        except OSError as reason:
            raise Fault(path, reason.strerror) from None

    def set_format(self, value):
        """The format of the inputs that follow."""
        if value not in ("elf64-x86-64", "default") and not value.startswith("elf64"):
            raise Fault(f"-b {value}", "inputs of this format can't be told in a manifest")

    def restore(self):
        """The state that was saved last."""
        if self.saved:
            self.state = self.saved.pop()


def listing(attribute):
    """An option each of whose values is kept."""
    return lambda reader, value: getattr(reader.command, attribute).append(value)


def setting(attribute):
    """An option whose last value counts."""
    return lambda reader, value: setattr(reader.command, attribute, value)


def input_of(kind):
    """An option that names an input."""
    return lambda reader, value: reader.add_input(kind, value)


VALUED = {
    "l": input_of("library"), "library": input_of("library"), "T": input_of("script"), "script": input_of("script"),
    "default-script": input_of("script"), "dT": input_of("script"), "L": listing("search"), "library-path": listing("search"),
    "u": listing("force_undefined"), "undefined": listing("force_undefined"), "require-defined": WordReader.require,
    "wrap": listing("wrap"), "export-dynamic-symbol": listing("force_export"), "defsym": WordReader.add_redirect,
    "e": WordReader.set_entry, "entry": WordReader.set_entry, "z": WordReader.set_keyword,
    "soname": WordReader.set_soname, "h": WordReader.set_soname,
    "init": setting("first_call"), "fini": setting("last_call"),
    "b": WordReader.set_format, "format": WordReader.set_format,
    "sysroot": lambda reader, value: setattr(reader.command, "system_root", value.rstrip("/")),
    "version-script": lambda reader, value: reader.set_text("version_script", value, "version script"),
    "dynamic-list": lambda reader, value: reader.set_text("export_list", value, "list of exported names"),
    "export-dynamic-symbol-list": lambda reader, value: reader.set_text("export_list", value, "list of exported names"),
}  # fmt: skip
PLAIN = {
    "push-state": lambda reader: reader.saved.append(reader.state.copy()),
    "pop-state": WordReader.restore,
}


def read_words(words, warnings, collects=False):
    """The command that some words make; `collects` is as if `--gc-sections` stood before them."""
    reader = WordReader(words, warnings)
    reader.command.collects = collects
    return reader.read()

"""Tests of the claims that are made of an answer's lines.

    cd tools && python3 -m unittest -q test_claim
"""

import json
import pathlib
import subprocess
import sys
import tempfile
import unittest

from claimed.main import claimed
from claimed.table import NOWHERE
from explained.faults import Fault

TOOL = pathlib.Path(__file__).resolve().parent / "claim"


def defined(name, place="absolute", **more):
    """A definition of a manifest."""
    return {"name": name, "place": place, **more}


def wanted(name, **more):
    """A reference of a manifest."""
    return {"name": name, "place": "undefined", **more}


def file(name, *symbols, **more):
    """An object of a manifest. A text is a reference to that name."""
    return {"name": name, "symbols": [wanted(one) if isinstance(one, str) else one for one in symbols], **more}


def grouped(name, *symbols, first=1, **more):
    """An object whose first symbol, with this number, signs a COMDAT group of section 1."""
    return file(name, *symbols, sections=3, groups=[{"header": 2, "signature": first, "members": [1]}], **more)


def symbol_lines(pairs):
    """The `symbol` lines of names, `-` for none, and of what each of them means."""
    words = pairs.split()
    named = enumerate(zip(words[::2], words[1::2]))
    return "".join(f"symbol {symbol} {'<unnamed>' if name == '-' else name} -> {meant} [ABSOLUTE]\n" for symbol, (name, meant) in named)


def required(count, *rules):
    """The lines of `why` where so many objects are loaded without a reference."""
    return "".join(f"why {number} required\n" for number in range(count)) + "".join(f"rule {rule}\n" for rule in rules)


def other_steps(claim, table):
    """The steps of a claim's table that aren't those of this one, by their symbols."""
    return {symbol: step for symbol, (step, right) in enumerate(zip(claim["table"], table)) if step != right}


class ClaimTest(unittest.TestCase):
    def setUp(self):
        folder = tempfile.TemporaryDirectory()
        self.addCleanup(folder.cleanup)
        self.paths = [pathlib.Path(folder.name) / name for name in ("m.json", "m.report", "m.why")]

    def write(self, manifest, report, why):
        """Writes the three files."""
        for path, text in zip(self.paths, (json.dumps(manifest), report, why)):
            path.write_bytes(text if isinstance(text, bytes) else text.encode())

    def claim(self, manifest, report, why):
        """The claim of these lines, beside which the manifest stays as it is, and what they contradict one another about."""
        self.write(manifest, report, why)
        written, told = claimed(*self.paths)
        found = json.loads(written)
        claim = found.pop("claim")
        self.assertEqual(found, manifest)
        return claim, told


class TableTest(ClaimTest):
    """Right answers in which all objects are loaded without a reference, each with its table."""

    def is_claimed(self, manifest, report, why, table):
        """The lines make a claim with this table."""
        claim, told = self.claim(manifest, report, why)
        self.assertEqual(claim["table"], table)
        self.assertEqual(told, [])

    def test_a_reference_points_to_the_first_definition(self):
        objects = [file("m.o", "f"), file("a.o", defined("f", bind="weak")), file("b.o", defined("f"))]
        report = "loaded 0 m.o\nloaded 1 a.o\nloaded 2 b.o\n" + symbol_lines("- 0  - 0 f 6  - 0 f 6  - 0 f 6")
        self.is_claimed({"objects": objects}, report, required(3, "f 6 strong 4 6"), [0, 0, 4, 0, 6, 0, 6])

    def test_forced_names_point_to_the_first_definition_or_to_themselves(self):
        objects = [file("a.o", defined("f", bind="weak")), file("b.o", defined("f"))]
        report = "loaded 0 a.o\nloaded 1 b.o\n" + symbol_lines("- 0 f 6 x 2  - 0 f 6  - 0 f 6")
        why = required(2, "f 6 strong 4 6")
        self.is_claimed({"force_undefined": ["f", "x"], "objects": objects}, report, why, [0, 4, 2, 0, 6, 0, 6])

    def test_a_wrapped_name_points_to_the_first_definition_of_another_name(self):
        objects = [file("m.o", "f"), file("a.o", defined("f"), defined("__wrap_f", bind="weak")),
                   file("b.o", defined("__wrap_f"))]
        report = "loaded 0 m.o\nloaded 1 a.o\nloaded 2 b.o\n" + symbol_lines("- 0  - 0 f 7  - 0 f 4 __wrap_f 7  - 0 __wrap_f 7")
        why = required(3, "__wrap_f 7 strong 5 7")
        self.is_claimed({"wrap": ["f"], "objects": objects}, report, why, [0, 0, 5, 0, 4, 7, 0, 7])

    def test_a_hidden_reference_takes_the_best_of_those_beside_a_shared_one(self):
        # Symbol 7 is the best, though its section goes with its group, so that another one counts.
        objects = [file("l.so", defined("f"), defined("g", vis="hidden"), dynamic=True), grouped("a.o", defined("f", 1, bind="weak")),
                   grouped("b.o", defined("f", 1)), file("c.o", defined("f", "common", size=4)),
                   file("m.o", wanted("f", vis="hidden"), "f")]
        report = "loaded 0 l.so\nloaded 1 a.o\nloaded 2 b.o\nloaded 3 c.o\nloaded 4 m.o\nkept 1 0 f\n"
        report += symbol_lines("- 0  - 0 f 9 g 0  - 0 f 9  - 0 f 9  - 0 f 9  - 0 f 9 f 9")
        self.is_claimed({"objects": objects}, report, required(5, "f 9 common 2 5 7 9"), [0, 0, 9, 0, 0, 9, 0, 9, 0, 9, 0, 7, 2])

    def test_which_is_best_beside_a_shared_one_is_the_platform_s(self):
        # The weak definition is in a section that is gone, so that the larger common one counts.
        symbols = [defined("f", "common", size=4), defined("f", "common", size=8), wanted("f", vis="protected")]
        rows = [
            ("elf", 1, "- 0  - 0 f 10  - 0 g 4  - 0 g 4 f 10  - 0 f 10 f 10 f 10", ("f 10 common 2 7 9 10", "g 4 strong 4 6"),
             [0, 0, 10, 0, 4, 0, 4, 10, 0, 10, 10, 10]),
            ("macho", 0, "- 0  f 6  g 2  g 2 f 6  f 6 f 6 f 6", ("f 6 common 1 4 5 6", "g 2 strong 2 3"), [0, 6, 2, 2, 6, 6, 6, 4]),
        ]
        for platform, first, pairs, rules, table in rows:
            objects = [file("l", defined("f"), dynamic=True), grouped("a", defined("g", 1), first=first),
                       grouped("b", defined("g", 1), defined("f", 1, bind="weak"), first=first), file("m", *symbols)]
            report = "loaded 0 l\nloaded 1 a\nloaded 2 b\nloaded 3 m\nkept 1 0 g\n" + symbol_lines(pairs)
            self.is_claimed({"platform": platform, "objects": objects}, report, required(4, *rules), table)

    def test_a_name_s_choice_may_lie_in_the_list_of_a_version(self):
        # From 8 the table leads to 1, from 1 to 4, and from 4 to 6.
        symbols = [{"name": "f", "placement": "load_base"}] * 2
        objects = [file("l.so", defined("f", version="V"), dynamic=True),
                   file("a.o", defined("f", bind="weak", version="V", default=False)), file("r.o", "f", wanted("f", version="V"))]
        report = "loaded 0 l.so\nloaded 1 a.o\nloaded 2 r.o\n" + symbol_lines("- 0 f 6 f 6  - 0 f 6  - 0 f 6  - 0 f 4 f 6")
        why = required(3, "f 4 surviving 1 2 4", "f@V 6 weak 4 6")
        self.is_claimed({"linker_symbols": symbols, "objects": objects}, report, why, [0, 4, 4, 0, 6, 0, 6, 0, 1, 4])

    def test_the_only_definition_of_a_name_or_of_a_version_may_lie_in_a_list_of_the_other(self):
        objects = [file("a.o", defined("f", version="V", bind="weak")), file("b.o", defined("f", version="V", default=False)),
                   file("c.o", defined("g", version="W", bind="weak")), file("d.o", defined("g")),
                   file("m.o", "f", wanted("g", version="W"))]
        report = "".join(f"loaded {number} {name}.o\n" for number, name in enumerate("abcdm"))
        report += symbol_lines("- 0  - 0 f 4  - 0 f 4  - 0 g 8  - 0 g 8  - 0 f 4 g 8")
        why = required(5, "g 8 strong 6 8", "f@V 4 strong 2 4")
        self.is_claimed({"objects": objects}, report, why, [0, 0, 4, 0, 4, 0, 8, 0, 8, 0, 2, 6])

    def test_comdat_groups_and_what_is_left_out_with_them(self):
        objects = [grouped("a.o", defined("f", 1)), grouped("b.o", defined("f", 1), "f")]
        report = "loaded 0 a.o\nloaded 1 b.o\nkept 0 0 f\n" + symbol_lines("- 0  - 0 f 2  - 0 f 2 f 2")
        why = required(2, "f 2 strong 2 4")
        self.is_claimed({"objects": objects}, report, why, [0, 0, 2, 0, 2, 2])
        self.assertEqual(self.claim({"objects": objects}, report, why)[0]["kept"], [{"object": 0, "group": 0}])

    def test_files_that_are_no_objects(self):
        manifest = {
            "platform": "macho", "output": "shared", "version_script": "V1 { _f; };", "export_list": "_f\n_g\n",
            "defsym": [{"name": "d", "targets": ["_f"]}],
            "objects": [file("m.o", defined("_f"))], "scripts": [{"name": "s", "symbols": [{"name": ""}, {"name": "_p"}]}],
            "stubs": [{"name": "t", "strong": ["_p"], "weak": ["q"]}],
        }
        report = "loaded 0 m.o\n" + symbol_lines("- 0 d 1 _f 2 - 3 _p 5 _p 5 q 6") + "version 2 2\nmissing _g\n"
        self.is_claimed(manifest, report, required(1, "_p 5 surviving 4 5"), [0, 1, 2, 3, 5, 5, 6])
        manifest["claim"] = None
        self.write(manifest, report, required(1, "_p 5 surviving 4 5"))
        self.assertEqual(json.loads(claimed(*self.paths)[0])["claim"]["table"], [0, 1, 2, 3, 5, 5, 6])


class UndefinedTest(ClaimTest):
    """References that nothing defines, or that point to an object which isn't loaded."""

    def test_the_last_reference_or_a_symbol_that_is_added_stands_for_a_name(self):
        objects = [file("m.o", "x", "x", "__start_a", wanted("__stop_b", vis="hidden"), "__start_a"), file("z.o", "x", archive=True)]
        manifest = {"custom_sections": ["a", "b"], "objects": objects}
        report = "loaded 0 m.o\n" + symbol_lines(
            "- 0  - 0 x 3 x 3 __start_a 9 __stop_b 10 __start_a 9  - 0 x 0  __start_a 9 __stop_b 10") + "undefined 3 x\n"
        table = [0, 0, 3, 3, 9, 10, 9, 0, 0, 9, 10]
        claim, told = self.claim(manifest, report, required(1))
        self.assertEqual((claim["table"], told), (table, []))
        # The names of the added symbols are exchanged. A claim wouldn't tell it.
        other = report.replace("9 __start_a", "9 __stop_b").replace("10 __stop_b", "10 __start_a")
        self.assertEqual(self.claim(manifest, other, required(1))[1], ["symbol 4", "symbol 5", "symbol 6"])

    def test_of_a_name_and_version_the_last_reference_keeps_its_own_step(self):
        weak, version = {"bind": "weak", "version": "V"}, {"version": "V", "default": False}
        objects = [file("r.o", wanted("f", **weak), wanted("f", **weak), wanted("g", version="V"), wanted("g", version="V")),
                   file("m.o", defined("f", **version), archive=True), file("b.o", defined("f", **version))]
        report = "loaded 0 r.o\nloaded 2 b.o\n" + symbol_lines("- 0  - 0 f 7 f 9 g 0 g 0  - 0 f 9  - 0 f 9")
        why = "why 0 required\nwhy 2 required\nrule f@V 9 strong 7 9\n"
        table = [0, 0, 3, 7, 5, 0, 0, 9, 0, 9]
        rows = [
            ("undefined 3 f@V\nundefined 5 g@V\n", {}),
            ("undefined 5 g@V\n", {2: NOWHERE, 3: NOWHERE}),
            ("undefined 3 f@V\n", {4: NOWHERE, 5: NOWHERE}),
            ("undefined 2 f@V\nundefined 5 g@V\n", {2: NOWHERE, 3: NOWHERE}),
            ("undefined 3 f@V\nundefined 4 g@V\n", {4: 0, 5: NOWHERE}),
            ("undefined 3 f@V\nundefined 3 f@V\nundefined 5 g@V\n", {3: NOWHERE}),
        ]
        for lines, others in rows:
            claim, told = self.claim({"objects": objects}, report + lines, why)
            self.assertEqual(other_steps(claim, table), others)
            self.assertEqual(told, [f"symbol {symbol}" for symbol, step in others.items() if step == NOWHERE])

    def test_a_strong_reference_of_a_shared_object_loads_no_other_one(self):
        objects = [file("k", "f", wanted("f", version="V"), dynamic=True),
                   file("l", defined("f", version="V"), dynamic=True, as_needed=True),
                   file("m", wanted("f", version="V", bind="weak"), wanted("f", bind="weak"))]
        report = "loaded 0 k\nloaded 2 m\n" + symbol_lines("- 0  - 0 f 5 f 5  - 0 f 5  - 0 f 5 f 8") + "undefined 7 f@V\nundefined 8 f\n"
        claim, told = self.claim({"objects": objects}, report, "why 0 required\nwhy 2 required\n")
        self.assertEqual((claim["table"], told), ([0, 0, 5, 5, 0, 5, 0, 5, 8], []))

    def test_a_hidden_reference_may_find_nothing_beside_a_shared_one(self):
        weak = {"version": "V", "bind": "weak"}
        objects = [file("k", defined("f"), dynamic=True),
                   file("l", defined("f", version="V", default=False), dynamic=True, as_needed=True), file("a", defined("f")),
                   file("m", wanted("f", vis="hidden", **weak), wanted("f", vis="hidden", **weak), wanted("f", **weak))]
        report = "loaded 0 k\nloaded 2 a\nloaded 3 m\n" + symbol_lines("- 0  - 0 f 6  - 0 f 4  - 0 f 6  - 0 f 4 f 4 f 4")
        report += "undefined 10 f@V\n"
        claim, told = self.claim({"objects": objects}, report, "why 0 required\nwhy 2 required\nwhy 3 required\nrule f 6 strong 2 6\n")
        self.assertEqual((claim["table"], told), ([0, 0, 6, 0, 4, 0, 6, 0, 10, 10, 4], []))


class NamesTest(ClaimTest):
    def test_names_with_line_feeds_and_names_that_are_no_text(self):
        manifest = {
            "force_undefined": ["z\ny"], "custom_sections": ["n -> 1 []\nz", {"hex": "ff"}], "allow_multiple": True,
            "objects": [
                grouped("x\nloaded 1 y", defined({"hex": "ff41"}, 1), defined({"hex": "41"}), defined("", version=""),
                        "__start_n -> 1 []\nz", wanted({"hex": "5f5f73746f705fff"})),
                file("", defined("A"), defined("A@"), defined("A@"), defined("", version=""), "l\nm", wanted("l\nm", version="\n"),
                     defined("r 4 strong 5 6\nrule q"), defined("r 4 strong 5 6\nrule q")),
                file("d", defined("z\ny"), archive=True),
            ],
        }
        bytes_name = "INVALID UTF-8([95, 95, 115, 116, 111, 112, 95, 255])"
        names = ["<unnamed>", "z\ny", "<unnamed>", "INVALID UTF-8([255, 65])", "A", "<unnamed>", "__start_n -> 1 []\nz", bytes_name,
                 "<unnamed>", "A", "A@", "A@", "<unnamed>", "l\nm", "l\nm", "r 4 strong 5 6\nrule q", "r 4 strong 5 6\nrule q",
                 "<unnamed>", "z\ny", bytes_name, "__start_n -> 1 []\nz"]
        means = [0, 18, 0, 3, 4, 5, 20, 19, 0, 4, 10, 10, 5, 13, 0, 15, 15, 0, 18, 19, 20]
        report = "loaded 0 x\nloaded 1 y\nloaded 1 \nloaded 2 d\nkept 0 0 INVALID UTF-8([255, 65])\n"
        named = enumerate(zip(names, means))
        report += "".join(f"symbol {symbol} {name} -> {meant} [DYNAMIC | IFUNC]\n" for symbol, (name, meant) in named)
        report += "undefined 13 l\nm\nundefined 14 l\nm@\n\n"
        why = "why 0 required\nwhy 1 required\nwhy 2 root z\ny\nrule A 4 strong 4 9\nrule  5 strong 5 12\nrule A@ 10 strong 10 11\n"
        why += "rule r 4 strong 5 6\nrule q 15 strong 15 16\nrule @ 5 strong 5 12\n"
        claim, told = self.claim(manifest, report, why)
        self.assertEqual(claim["table"], [0, 18, 0, 3, 4, 5, 20, 19, 0, 4, 10, 10, 5, 13, 0, 15, 15, 0, 18, 19, 20])
        self.assertEqual([one["object"] for one in claim["loaded"]], [0, 1, 2])
        self.assertEqual((claim["kept"], told), ([{"object": 0, "group": 0}], []))


# main.o asks for a.o, and that for b.o, whose `foo` counts. c.o and d.o ask for each other, and nothing else does.
MANIFEST = {"objects": [
    grouped("main.o", defined("max", 1, bind="weak"), "foo", "gone"),
    grouped("a.o", defined("max", 1, bind="weak"), defined("foo", bind="weak"), "bar", archive=True),
    file("b.o", defined("bar"), defined("foo"), archive=True),
    file("c.o", defined("baz"), "qux", archive=True),
    file("d.o", defined("qux"), "baz", archive=True),
]}
REPORT = "loaded 0 main.o\nloaded 1 a.o\nloaded 2 b.o\nkept 0 0 max\n" + symbol_lines(
    "- 0  - 0 max 2 foo 11 gone 4  - 0 max 2 foo 11 bar 10  - 0 bar 10 foo 11  - 0 baz 13 qux 0  - 0 qux 16 baz 0") + "undefined 4 gone\n"
WHY = "why 0 required\nwhy 1 symbol 3 of 0\nwhy 2 symbol 8 of 1\nrule max 2 weak 2 6\nrule foo 11 strong 7 11\n"
LOADED = [(0, 0, None), (1, 1, 3), (2, 2, 8)]
TABLE = [0, 0, 2, 7, 4, 0, 2, 11, 10, 0, 10, 11, 0, 13, 0, 0, 16, 0]


def items(loaded):
    """The loaded objects of a claim, from triples."""
    return [{"object": number, "rank": rank, "by": by} for number, rank, by in loaded]


class WrongAnswerTest(ClaimTest):
    """Answers that are wrong: whatever differs from the right claim here makes it fail."""

    def changed(self, *changes):
        """The claim of the lines, each changed where its old text stands, and what they contradict one another about."""
        report, why = REPORT, WHY
        for old, new in changes:
            self.assertEqual((report + why).count(old), 1, old)
            report, why = report.replace(old, new), why.replace(old, new)
        return self.claim(MANIFEST, report, why)

    def has_table(self, changes, steps):
        """With these changes, just these steps of the table are others."""
        claim, told = self.changed(*changes)
        self.assertEqual(other_steps(claim, TABLE), steps)
        self.assertEqual(told, [f"symbol {symbol}" for symbol, step in steps.items() if step == NOWHERE])
        self.assertEqual((claim["loaded"], len(claim["table"])), (items(LOADED), len(TABLE)))

    def has_loaded(self, changes, loaded, told=()):
        """With these changes, these objects are claimed to be loaded."""
        claim, found = self.changed(*changes)
        self.assertEqual(claim["loaded"], items(loaded))
        self.assertEqual([one for one in found if one.startswith("object")], [f"object {number}" for number in told])

    def test_the_right_answer(self):
        self.assertEqual(self.changed(), ({"loaded": items(LOADED), "kept": [{"object": 0, "group": 0}], "table": TABLE}, []))

    def test_members_that_need_only_each_other(self):
        # No ranks fall along reasons that go round.
        added = [("kept 0", "loaded 3 c.o\nloaded 4 d.o\nkept 0"), ("qux -> 0", "qux -> 16"), ("baz -> 0", "baz -> 13"),
                 ("rule max", "why 3 symbol 17 of 4\nwhy 4 symbol 14 of 3\nrule max")]
        self.has_loaded(added, [*LOADED, (3, 1, 17), (4, 0, 14)])

    def test_a_member_that_is_not_needed(self):
        self.has_loaded([("kept 0", "loaded 3 c.o\nkept 0"), ("rule max", "why 3 root x\nrule max")], [*LOADED, (3, 0, None)])
        self.has_loaded([("kept 0", "loaded 3 c.o\nkept 0"), ("rule max", "why 3 symbol 3 of 0\nrule max")], [*LOADED, (3, 1, 3)])

    def test_a_member_that_is_missing(self):
        self.has_loaded([("loaded 2 b.o\n", ""), ("why 2 symbol 8 of 1\n", "")], LOADED[:2])

    def test_reports_and_reasons_with_other_objects(self):
        self.has_loaded([("loaded 2 b.o\n", "")], [*LOADED, (2, 0, NOWHERE)], [2])
        self.has_loaded([("why 1 symbol 3 of 0\n", "")], [(0, 0, None), (2, 0, 8), (1, 0, NOWHERE)], [1])
        self.has_loaded([("loaded 0 main.o\nloaded 1 a.o\n", "loaded 1 a.o\nloaded 0 main.o\n")], [*LOADED, (1, 0, NOWHERE)], [1])

    def test_a_reference_that_is_not_of_the_object(self):
        self.has_loaded([("symbol 8 of 1", "symbol 8 of 0")], [(0, 0, None), (1, 1, 3), (2, 1, NOWHERE)], [2])
        self.has_loaded([("symbol 8 of 1", "symbol 0 of 0")], [(0, 0, None), (1, 1, 3), (2, 1, NOWHERE)], [2])

    def test_another_group(self):
        self.assertEqual(self.changed(("kept 0 0", "kept 1 0"))[0]["kept"], [{"object": 1, "group": 0}])
        self.assertEqual(self.changed(("kept 0 0 max\n", ""))[0]["kept"], [])
        twice = [{"object": 1, "group": 0}, {"object": 0, "group": 0}]
        self.assertEqual(self.changed(("kept 0 0", "kept 1 0 max\nkept 0 0"))[0]["kept"], twice)

    def test_another_meaning(self):
        # Of a definition that is alone, of a reference in an object that isn't loaded, and of an undefined one.
        self.has_table([("13 baz -> 13", "13 baz -> 0")], {13: 0})
        self.has_table([("14 qux -> 0", "14 qux -> 16")], {14: 16})
        self.has_table([("4 gone -> 4", "4 gone -> 13")], {4: NOWHERE})
        self.has_table([("4 gone -> 4", "4 gone -> 0"), ("undefined 4 gone\n", "")], {4: NOWHERE})

    def test_another_meaning_than_the_choice(self):
        self.has_table([("3 foo -> 11", "3 foo -> 7")], {3: NOWHERE})
        self.has_table([("7 foo -> 11", "7 foo -> 7")], {7: NOWHERE})
        self.has_table([("foo 11 strong", "foo 7 strong")], {3: NOWHERE, 7: NOWHERE, 11: NOWHERE})
        self.has_table([("3 foo -> 11", "3 foo -> 13")], {3: 13})

    def test_another_choice_throughout(self):
        changes = [(f"{symbol} foo -> 11", f"{symbol} foo -> 7") for symbol in (" 3", " 7", "11")]
        self.has_table([*changes, ("foo 11 strong", "foo 7 strong")], {7: 7, 11: 7})

    def test_definitions_in_two_lists(self):
        self.has_table([("rule foo 11 strong 7 11\n", "rule foo 11 strong 7 11\nrule foo 7 strong 7 11\n")], {7: NOWHERE, 11: NOWHERE})

    def test_other_undefined_names(self):
        self.has_table([("undefined 4 gone\n", "")], {4: NOWHERE})
        self.has_table([("undefined 4 gone\n", "undefined 4 gone\nundefined 3 foo\n")], {3: NOWHERE})
        self.has_table([("undefined 4 gone\n", "undefined 4 gone\nundefined 14 qux\n")], {14: NOWHERE})
        self.has_table([("undefined 4 gone\n", "undefined 4 gone\nundefined 2 max\n")], {2: NOWHERE})


class FaultTest(ClaimTest):
    def test_what_is_no_report(self):
        no = "no line that `link` writes there"
        rows = [
            ("error: no input files\n", f"line 1: {no}: error: no input files (the manifest has 'symbol 0 <unnamed>' there)"),
            ("", f"line 1: {no}:  (the manifest has 'symbol 0 <unnamed>' there)"),
            (REPORT.replace("loaded 1 a.o", "loaded 1 b.o"), f"line 2: {no}: loaded 1 b.o (the manifest has 'a.o' there)"),
            (REPORT.replace("loaded 1 a.o", "loaded 5 a.o"), f"line 2: {no}: loaded 5 a.o (5 is not below 5)"),
            (REPORT.replace("loaded 1 a.o", "loaded 01 a.o"), f"line 2: {no}: loaded 01 a.o"),
            (REPORT.replace("kept 0 0 max", "kept 0 1 max"), f"line 4: {no}: kept 0 1 max (object 0 of the manifest has no group 1)"),
            (REPORT.replace("kept 0 0 max", "kept 0 0 min"), f"line 4: {no}: kept 0 0 min (the manifest has 'max' there)"),
            (REPORT.replace("3 foo -> 11", "3 food -> 11"), f"line 8: {no}: symbol 3 food -> 11 [ABSOLUTE]"),
            (REPORT.replace("3 foo -> 11", "3 fo -> 11"),
             f"line 8: {no}: symbol 3 fo -> 11 [ABSOLUTE] (the manifest has 'symbol 3 foo' there)"),
            (REPORT.replace("3 foo -> 11", "3 foo => 11"), f"line 8: {no}: symbol 3 foo => 11 [ABSOLUTE]"),
            (REPORT.replace("3 foo -> 11", "3 foo -> 18"), "symbol 3 means 18, and there are 18 symbols"),
            (REPORT.replace("undefined", "symbol 18 x -> 1 []\nundefined"),
             f"line 23: {no}: symbol 18 x -> 1 [] (the manifest has no such symbol)"),
            (REPORT + "undefined 18 x\n", f"line 24: {no}: undefined 18 x (18 is not below 18)"),
            (REPORT + "undefined 0 foo\n", f"line 24: {no}: undefined 0 foo (the manifest has '' there)"),
            (REPORT + "version 18 1\n", f"line 24: {no}: version 18 1"),
            (REPORT + "\n", f"line 24: {no}: "),
            (REPORT[:-1], f"line 23: {no}: undefined 4 gone (the manifest has 'gone' there)"),
            (b"loaded 0 \xff\n", "no text"),
        ]
        for report, said in rows:
            self.write(MANIFEST, report, WHY)
            with self.assertRaises(Fault) as refused:
                claimed(*self.paths)
            self.assertEqual(str(refused.exception), f"{self.paths[1]}: {said}")

    def test_what_is_no_line_of_why(self):
        no = "no line that `why` writes there"
        rows = [
            ("error: no input files\n", f"line 1: {no}: error: no input files"),
            (WHY.replace("why 1", "why 5"), f"line 2: {no}: why 5 symbol 3 of 0 (5 is not below 5)"),
            (WHY.replace("symbol 3 of 0", "symbol 18 of 0"), f"line 2: {no}: why 1 symbol 18 of 0 (18 is not below 18)"),
            (WHY.replace("symbol 3 of 0", "symbol 3 of 5"), f"line 2: {no}: why 1 symbol 3 of 5 (5 is not below 5)"),
            (WHY.replace("symbol 3 of 0", "root "), f"line 2: {no}: why 1 root "),
            (WHY.replace("foo 11 strong", "foo 11 stronger"), f"line 5: {no}: rule foo 11 stronger 7 11"),
            (WHY.replace("foo 11 strong 7 11", "foo 11 strong 7"), f"line 5: {no}: rule foo 11 strong 7"),
            (WHY.replace("foo 11 strong 7 11", "foo 11 strong 6 11"), f"line 5: {no}: rule foo 11 strong 6 11"),
            (WHY.replace("foo 11 strong 7 11", "foo 11 strong 7 18"), f"line 5: {no}: rule foo 11 strong 7 18 (18 is not below 18)"),
            (WHY.replace("foo 11 strong 7 11", "foo 19 strong 7 11"), f"line 5: {no}: rule foo 19 strong 7 11 (19 is not below 18)"),
            (WHY + "why 3 required\n", f"line 6: {no}: why 3 required"),
            (WHY[:-1], f"line 5: {no}: rule foo 11 strong 7 11"),
        ]
        for why, said in rows:
            self.write(MANIFEST, REPORT, why)
            with self.assertRaises(Fault) as refused:
                claimed(*self.paths)
            self.assertEqual(str(refused.exception), f"{self.paths[2]}: {said}")

    def test_what_is_no_manifest(self):
        rows = [b"[]", b"{", b"[" * 100000, b'{"objects": 1}', b'{"objects": [{}]}', b'{"objects": [{"name": "a", "symbols": [{}]}]}',
                b'{"objects": [{"name": "a", "groups": [{"signature": 9}]}]}']
        for text in rows:
            self.write(MANIFEST, REPORT, WHY)
            self.paths[0].write_bytes(text)
            with self.assertRaises(Fault) as refused:
                claimed(*self.paths)
            self.assertEqual(str(refused.exception), f"{self.paths[0]}: no manifest that `link` reads")
        self.write({**MANIFEST, "batches": [{}]}, REPORT, WHY)
        self.assertRaisesRegex(Fault, "m.json: a manifest with batches, with which no claim goes$", claimed, *self.paths)


class ToolTest(ClaimTest):
    def run_tool(self, *words):
        """The status of the tool, and what it writes."""
        done = subprocess.run([sys.executable, TOOL, *words], capture_output=True)
        return done.returncode, done.stdout.decode(), done.stderr.decode()

    def test_statuses(self):
        self.write(MANIFEST, REPORT, WHY)
        claim = {"loaded": items(LOADED), "kept": [{"object": 0, "group": 0}], "table": TABLE}
        status, written, said = self.run_tool(*self.paths)
        self.assertEqual((status, json.loads(written), said), (0, {**MANIFEST, "claim": claim}, ""))
        self.write(MANIFEST, REPORT.replace("undefined 4 gone\n", ""), WHY)
        status, written, said = self.run_tool(*self.paths)
        self.assertEqual((status, json.loads(written)["claim"]["table"][4]), (0, NOWHERE))
        self.assertEqual(said, "the lines contradict one another about symbol 4\n")
        self.write(MANIFEST, "", WHY)
        said = f"error: {self.paths[1]}: line 1: no line that `link` writes there:  (the manifest has 'symbol 0 <unnamed>' there)\n"
        self.assertEqual(self.run_tool(*self.paths), (2, "", said))
        self.paths[1].unlink()
        self.assertEqual(self.run_tool(*self.paths), (2, "", f"error: {self.paths[1]}: No such file or directory\n"))
        self.assertEqual(self.run_tool(*self.paths[:2])[:2], (2, ""))
        self.assertEqual(self.run_tool("--help")[0], 0)


if __name__ == "__main__":
    sys.exit(unittest.main())

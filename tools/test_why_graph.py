"""Tests of the pictures of why objects are loaded.

    cd tools && python3 -m unittest -q test_why_graph
"""

import json
import pathlib
import shutil
import subprocess
import sys
import tempfile
import unittest

from explained.faults import Fault
from explained.graph import picture, quoted
from explained.lines import Reference, Required, Root, chain_to, read_reasons
from explained.names import Names

TOOL = pathlib.Path(__file__).resolve().parent / "why_graph"


def file(name, *symbols, **more):
    """An object of a manifest: a symbol with a place is a definition, one without is a reference."""
    pairs = [one if isinstance(one, tuple) else (one, "undefined") for one in symbols]
    return {"name": name, "symbols": [{"name": symbol, "place": place} for symbol, place in pairs], **more}


# main.o asks for two members, the first of these for a third one, and a forced name for a fourth one.
MANIFEST = {
    "force_undefined": ["hook"],
    "objects": [
        file("main.o", "area", "log"),
        file("lib.a(area.o)", ("area", "absolute"), "scale", archive=True),
        file("lib.a(scale.o)", ("scale", "absolute"), archive=True),
        file("lib.a(log.o)", ("log", "absolute"), archive=True),
        file("lib.a(hook.o)", ("hook", "absolute"), archive=True),
        file("lib.a(never.o)", ("never", "absolute"), archive=True),
    ],
}
LINES = """why 0 required
why 1 symbol 3 of 0
why 2 symbol 7 of 1
why 3 symbol 4 of 0
why 4 root hook
"""
HEAD = "digraph why {\n    rankdir = LR;\n    node [shape = box];\n"


class LinesTest(unittest.TestCase):
    def test_each_kind_of_line(self):
        reasons = "why 0 required\nwhy 3 root a root 3 \nwhy 12 symbol 4294967295 of 3\n"
        choices = "rule a b 2 strong 2 4\nrule  5 first 5 7 9\nrule rule 6 weak 6 8 6 weak 6 8\n"
        self.assertEqual(read_reasons(reasons + choices), {0: Required(), 3: Root("a root 3 "), 12: Reference(4294967295, 3)})
        self.assertEqual(read_reasons(""), {})

    def test_what_is_no_line_of_why_is_refused(self):
        rows = [
            ("error: no input files\n", "line 1: no line that `why` writes: error: no input files"),
            ("why 0 required\nloaded 0 main.o\n", "line 2: no line that `why` writes: loaded 0 main.o"),
            ("why 12345678901 required\n", "line 1: no line that `why` writes: why 12345678901 required"),
            ("why 00 required\n", "line 1: no line that `why` writes: why 00 required"),
            ("why 0 required \n", "line 1: no line that `why` writes: why 0 required "),
            ("why 0 root \n", "line 1: no line that `why` writes: why 0 root "),
            ("why 0 symbol 2 of\n", "line 1: no line that `why` writes: why 0 symbol 2 of"),
            ("rule a 2 strong 2\n", "line 1: no line that `why` writes: rule a 2 strong 2"),
            ("rule a 2 strongest 2 4\n", "line 1: no line that `why` writes: rule a 2 strongest 2 4"),
            ("\n", "line 1: no line that `why` writes: "),
            ("why 0 required\nwhy 1", "line 2: the text ends inside it"),
            ("why 1 required\nwhy 1 required\n", "line 2: object 1 comes behind object 1"),
            ("why 1 required\nwhy 0 required\n", "line 2: object 0 comes behind object 1"),
            ("rule a 2 strong 2 4\nwhy 0 required\n", "line 2: a reason behind the choices: why 0 required"),
            ("why 0 symbol 2 of 1\n", "object 0 is loaded by object 1, which has no line"),
            ("why 0 symbol 2 of 0\n", "nothing that is loaded without a reference leads to object 0"),
            ("why 0 required\nwhy 1 symbol 2 of 2\nwhy 2 symbol 3 of 1\n", "nothing that is loaded without a reference leads to object 2"),
        ]
        for text, said in rows:
            with self.assertRaises(Fault) as refused:
                read_reasons(text)
            self.assertEqual(str(refused.exception), said)

    def test_a_chain_begins_without_a_reference(self):
        reasons = read_reasons(LINES)
        chains = {number: chain_to(reasons, number) for number in reasons}
        self.assertEqual(chains, {0: [0], 1: [0, 1], 2: [0, 1, 2], 3: [0, 3], 4: [4]})

    def test_a_long_chain(self):
        count = 200_000
        reasons = read_reasons("why 0 required\n" + "".join(f"why {number} symbol {number} of {number - 1}\n" for number in range(1, count)))
        self.assertEqual(chain_to(reasons, count - 1), list(range(count)))


class NamesTest(unittest.TestCase):
    # What each id is: its object and its name. Ids that aren't listed are of no object.
    ROWS = [
        ("elf", {3: (0, "a"), 4: (0, "b"), 6: (1, "c"), 12: (2, "d")}, 13),
        ("macho", {2: (0, "a"), 3: (0, "b"), 4: (1, "c"), 9: (2, "d")}, 10),
    ]

    def test_ids_run_on_as_the_program_counts_them(self):
        for platform, expected, end in self.ROWS:
            names = Names({
                "platform": platform, "linker_symbols": [{"name": "_end", "placement": "load_base"}], "force_undefined": [], "defsym": [],
                "objects": [file("m.o", "a", "b"), file("n.o", "c")], "scripts": [{"name": "s", "symbols": [{"name": "x"}, {"name": "y"}]}],
                "stubs": [{"name": "t", "strong": ["p"], "weak": ["q"]}], "batches": [{}, {"objects": [file("o.o", "d")]}],
            })
            entries = {symbol: names.entry(symbol) for symbol in range(end + 9)}
            told = {symbol: (number, entry["name"]) for symbol, (number, entry) in entries.items() if entry}
            self.assertEqual(told, expected, platform)
            self.assertEqual([names.of_object(number) for number in range(3)], ["m.o", "n.o", "o.o"])

    def test_forced_names_and_redirects_have_ids(self):
        names = Names({"force_undefined": ["x", "x"], "defsym": [{"name": "y"}], "objects": [file("m.o", "a")]})
        self.assertEqual(names.of_symbol(5, 0), "a")

    def test_a_name_that_is_no_text(self):
        names = Names({"objects": [file("m.o", {"hex": "ff41"}, {"hex": "41"})]})
        self.assertEqual([names.of_symbol(symbol, 0) for symbol in (2, 3)], ["INVALID UTF-8([255, 65])", "A"])

    def test_numbers_that_the_manifest_lacks(self):
        names = Names(MANIFEST)
        rows = [
            (lambda: names.of_object(6), "the manifest has no object 6, but 6 objects"),
            (lambda: names.of_symbol(2, 0), "in the manifest, symbol 2 is none of object 0"),
            (lambda: names.of_symbol(3, 1), "in the manifest, symbol 3 is none of object 1"),
            (lambda: names.of_symbol(99, 5), "in the manifest, symbol 99 is none of object 5"),
        ]
        for call, said in rows:
            with self.assertRaises(Fault) as refused:
                call()
            self.assertEqual(str(refused.exception), said)


class PictureTest(unittest.TestCase):
    def setUp(self):
        folder = tempfile.TemporaryDirectory()
        self.addCleanup(folder.cleanup)
        self.manifest = pathlib.Path(folder.name) / "link.json"
        self.manifest.write_text(json.dumps(MANIFEST))

    def test_with_names(self):
        body = [
            '0 [label = "0 main.o\\nrequired", peripheries = 2];',
            '1 [label = "1 lib.a(area.o)"];',
            '2 [label = "2 lib.a(scale.o)"];',
            '3 [label = "3 lib.a(log.o)"];',
            '4 [label = "4 lib.a(hook.o)\\nroot hook", peripheries = 2];',
            '0 -> 1 [label = "area"];',
            '1 -> 2 [label = "scale"];',
            '0 -> 3 [label = "log"];',
        ]
        self.assertEqual(picture(LINES, self.manifest, None), HEAD + "".join(f"    {line}\n" for line in body) + "}\n")

    def test_without_names(self):
        body = ['0 [label = "object 0\\nrequired", peripheries = 2];', '1 [label = "object 1"];', '0 -> 1 [label = "symbol 3"];']
        self.assertEqual(picture(LINES, None, "1"), HEAD + "".join(f"    {line}\n" for line in body) + "}\n")
        self.assertEqual(picture("", None, None), HEAD + "}\n")

    def test_the_way_to_one_object(self):
        for word in ("2", "lib.a(scale.o)", "scale"):
            shown = picture(LINES, self.manifest, word)
            self.assertEqual(shown.count("[label = "), 5, word)
            self.assertIn('    1 -> 2 [label = "scale"];\n}\n', shown)
            self.assertNotIn("log", shown)

    def test_a_word_that_tells_no_object(self):
        rows = [
            ("5", "object 5 isn't loaded"),
            ("never.o", "no object never.o is loaded"),
            ("lib.a", "several loaded objects are meant by lib.a: 1, 2, 3, 4"),
        ]
        for word, said in rows:
            with self.assertRaises(Fault) as refused:
                picture(LINES, self.manifest, word)
            self.assertEqual(str(refused.exception), said)
        self.assertRaisesRegex(Fault, "no names are given", picture, LINES, None, "main.o")

    def test_a_whole_name_counts_before_a_part(self):
        self.manifest.write_text(json.dumps({"objects": [file("a.o"), file("aa.o"), file("b.o"), file("b.o")]}))
        lines = "".join(f"why {number} required\n" for number in range(4))
        self.assertIn('"0 a.o', picture(lines, self.manifest, "a.o"))
        self.assertRaisesRegex(Fault, "meant by b.o: 2, 3", picture, lines, self.manifest, "b.o")

    def test_letters_that_mean_something_to_graphviz(self):
        self.assertEqual(quoted('a\\N"b"\n&amp;\x01\u2028é'), '"a\\\\N\\"b\\"\\n&amp;amp;\\\\x01\\\\x2028é"')

    @unittest.skipUnless(shutil.which("dot"), "Graphviz isn't there")
    def test_graphviz_reads_it(self):
        odd = [file('\\N "x"\n&amp; \x01\\', "sub\\l"), file("}", ("sub\\l", "absolute"), archive=True)]
        self.manifest.write_text(json.dumps({"objects": odd}))
        shown = picture("why 0 required\nwhy 1 symbol 2 of 0\n", self.manifest, None)
        plain = subprocess.run(["dot", "-Tsvg"], input=shown.encode(), capture_output=True, check=True).stdout.decode()
        for text in (">0 \\N &quot;x&quot;<", ">&amp;amp; \\x01\\<", ">required<", ">sub\\l<", ">1 }<"):
            self.assertIn(text, plain)


class ToolTest(unittest.TestCase):
    def run_tool(self, data, *words):
        """The status of the tool, and what it writes on both streams."""
        done = subprocess.run([sys.executable, TOOL, *words], input=data, capture_output=True)
        return done.returncode, done.stdout.decode(), done.stderr.decode()

    def test_statuses(self):
        self.assertEqual(self.run_tool(LINES.encode(), "--of", "4"), (0, HEAD + '    4 [label = "object 4\\nroot hook", peripheries = 2];\n}\n', ""))
        with tempfile.TemporaryDirectory() as folder:
            for name, text in (("list", "[]"), ("word", '{"objects": 1}'), ("open", "{"), ("deep", "[" * 100000), ("nameless", '{"objects": [{}]}')):
                path = pathlib.Path(folder) / name
                path.write_text(text)
                self.assertEqual(self.run_tool(b"why 0 required\n", "--names", path), (1, "", f"error: {path}: no manifest that `why` reads\n"))
            gone = f"{folder}/gone"
            self.assertEqual(self.run_tool(b"why 0 required\n", "--names", gone), (1, "", f"error: {gone}: No such file or directory\n"))
        self.assertEqual(self.run_tool(b"why 0 root \xff\n"), (1, "", "error: standard input is no text\n"))
        self.assertEqual(self.run_tool(b"why\n"), (1, "", "error: line 1: no line that `why` writes: why\n"))
        self.assertEqual(self.run_tool(b"", "--off")[:2], (2, ""))


if __name__ == "__main__":
    sys.exit(unittest.main())

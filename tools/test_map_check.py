"""Tests of map_check.py, on a small map and on a small folder."""

import tempfile
import unittest
from pathlib import Path

import map_check

CRATES = "low:\nmiddle tests_may=Threads: low other\nhigh: low middle\n"
MAP = """# Map

```
- `none`: a drawing is passed over. Stands on: low.
```

- `low`: numbers. Stands on: nothing.
- `middle`: names,
  in two lines.
  Stands on: low,
  other.
- `high`: all. Stands on: low, middle.
- `low/specs/Words`: words.
  Definitions: `word`, `Text`, `of-word`.
- `low/src/lib.rt`: laws.
  Laws: `words_are_texts`.
"""
WORDS = "abbrev pub word : Type 0\npub record Text : Type 0 where\n  pub inner : word\nof-word : word\n"
LAWS = "/// A law.\npub fn words_are_texts()\n{\n}\n"


class MapCheck(unittest.TestCase):
    def setUp(self):
        folder = tempfile.TemporaryDirectory()
        self.addCleanup(folder.cleanup)
        self.top = Path(folder.name)
        for name, text in {"specs/Words.antt": WORDS, "src/lib.rt": LAWS}.items():
            path = self.top / "crates/low" / name
            path.parent.mkdir(parents=True, exist_ok=True)
            path.write_text(text, encoding="utf-8")

    def faults(self, old="", new="", crates=CRATES):
        self.assertIn(old, MAP)
        return map_check.faults_of(MAP.replace(old, new) if old else MAP, crates, self.top)

    def test_a_true_map_has_no_fault(self):
        self.assertEqual(self.faults(), [])

    def test_crates_are_compared(self):
        self.assertEqual(self.faults("- `high`: all. Stands on: low, middle.\n"), ["high: is not in the map"])
        self.assertEqual(self.faults(crates=CRATES + "top: high\n"), ["top: is not in the map"])
        fewer = CRATES.replace("high: low middle\n", "")
        self.assertEqual(self.faults(crates=fewer), ["high: is no crate of crates.txt"])
        again = "- `low`: again. Stands on: nothing.\n- `high`"
        self.assertEqual(self.faults("- `high`", again), ["low: stands in the map twice"])

    def test_dependencies_are_compared(self):
        self.assertEqual(self.faults("low,\n  other.", "low."), ["middle: stands on other, which the map does not say"])
        self.assertEqual(self.faults("low, middle.", "low, middle, other."), ["high: does not stand on other"])
        above = ["low: does not stand on high", "low: comes before high in the map"]
        self.assertEqual(self.faults("Stands on: nothing.", "Stands on: high."), above)

    def test_a_crate_is_alone(self):
        self.assertEqual(self.faults(": all.", ": all. No crate stands on it."), [])
        self.assertEqual(self.faults("in two lines.", "in two lines. No crate\n  stands on it."), ["middle: high stands on it"])

    def test_lists_have_their_form(self):
        form = "low/src/lib.rt: its list does not end with a full stop at the end of the item"
        self.assertEqual(self.faults("`words_are_texts`.", "`words_are_texts`"), [form])
        self.assertEqual(self.faults("`words_are_texts`.", "`words_are_texts`. And more."), [form])

    def test_files_and_definitions_are_looked_for(self):
        self.assertEqual(self.faults("`word`", "`ward`"), ["low/specs/Words: does not define ward"])
        self.assertEqual(self.faults("`word`", "`inner`"), ["low/specs/Words: does not define inner"])
        self.assertEqual(self.faults("`of-word`", "`of`"), ["low/specs/Words: does not define of"])
        self.assertEqual(self.faults("words_are", "texts_are"), ["low/src/lib.rt: does not define texts_are_texts"])
        self.assertEqual(self.faults("low/src/lib.rt", "low/src/main.rt"), ["low/src/main.rt: is not there"])
        named = "numbers of `low/src/number.rt`."
        self.assertEqual(self.faults("numbers.", named), ["low/src/number.rt: is not there"])


if __name__ == "__main__":
    unittest.main()

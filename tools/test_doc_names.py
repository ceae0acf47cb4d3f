"""Tests of tools/doc_names.py over a small made tree: what is found to name nothing, and that nothing else is."""

import tempfile
import unittest
from pathlib import Path

import doc_names

FILES = {
    "crates/low_text/src/lib.rt": "//! Text.\npub fn small() -> u32\n    ensures little { ⊤ }\n{\n    1\n}\n",
    "crates/low_text/specs/Texts.antt": "-- texts\nabbrev pub text_of : ℕ\ntext_of = 0\n",
    "tools/check_all.py": "",
    "tools/test_check_all.py": "",
    "tools/README.md": "`check_all.py` and `check_none.py`\n",
    "docs/OTHER.md": "# Other things\n\n## What `it` is\n",
}
GOOD = """# A page

`low_text`, `check_all` and `low_part::x` are there, `small` of `low_text` and `small`, `text_of` in `low_text` too, and so are
`crates/low_text/specs/Texts.antt`, `Texts.antt`, `src/lib.rt`, `crates/NAME/out`, `tools/*.py` and [other](OTHER.md#what-it-is).
A line can be named, as [this one](../crates/low_text/src/lib.rt#L2).
`docs` and `either/or` are no path, [here](#a-page) is this page, `little` of `low_text` is a clause.

```kmdf
`low_nothing`
```
"""
BAD = [
    ("the crate `low_words`", "low_words"),
    ("the file `crates/low_text/src/words.rt`", "crates/low_text/src/words.rt"),
    ("the file `Words.antt`", "Words.antt"),
    ("the function `great` of `low_text`", "great of low_text"),
    ("[a link](NONE.md)", "NONE.md"),
    ("[a link](OTHER.md#what-it-was)", "OTHER.md#what-it-was"),
    ("[a link](../crates/low_text/src/lib.rt#small)", "../crates/low_text/src/lib.rt#small"),
]


class Page(unittest.TestCase):
    def setUp(self):
        room = tempfile.TemporaryDirectory()
        self.addCleanup(room.cleanup)
        self.root = Path(room.name)
        for place, text in FILES.items():
            (self.root / place).parent.mkdir(parents=True, exist_ok=True)
            (self.root / place).write_text(text)

    def wrong_in(self, text):
        page = self.root / "docs/PAGE.md"
        page.write_text(text)
        return list(doc_names.wrong_in(page, doc_names.Names(self.root)))

    def test_names_of_what_is_there(self):
        self.assertEqual(self.wrong_in(GOOD), [])

    def test_names_of_nothing(self):
        for words, what in BAD:
            with self.subTest(words=words):
                self.assertEqual(self.wrong_in(GOOD + words + "\n"), [(GOOD.count("\n") + 1, what)])

    def test_length(self):
        self.assertIsNone(doc_names.too_long(self.root))
        (self.root / "docs/guide").mkdir()
        (self.root / "docs/guide/PAGE.md").write_text("-" * doc_names.MOST)
        self.assertIsNotNone(doc_names.too_long(self.root))

    def test_scripts_and_their_index(self):
        self.assertEqual(doc_names.not_in_the_index(self.root), ["check_none.py"])


if __name__ == "__main__":
    unittest.main()

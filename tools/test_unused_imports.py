"""Tests of `unused_imports.py`: it takes away what nothing names, and leaves what a line names as a word, as an operator, by its new name,
or for others; a comment names nothing. Of code also traits are left, and the end of a range names what it is."""

import unittest

from unused_imports import code_without_unused, without_unused

CASES = [
    # the text, what is left of it, what is unused
    ("use A.B.{x, y}\nf = x\n", "use A.B.{x}\nf = x\n", ["A.B.y"]),
    ("use A.{x}\nf = 1 -- x\n", "f = 1 -- x\n", ["A.x"]),
    ("use A.{◌+◌, ◌≤◌}\nf = a + b\n", "use A.{◌+◌}\nf = a + b\n", ["A.◌≤◌"]),
    ("use A.{if◌then◌else◌}\nf = if a then b else c\n", None, []),
    ("use A.{x as y}\nf = y.z\n", None, []),
    ("use A.{x as y}\nf = x\n", "f = x\n", ["A.x as y"]),
    ("pub use A.{x}\nuse B as b\n", None, []),
    ("use A.{[], ◌∷◌}\nf = []\n", "use A.{[]}\nf = []\n", ["A.◌∷◌"]),
    ("use A.{drop}\nf = drop-all\n", None, []),
]

CODE_CASES = [
    # the same of code, where `Draw` is a trait
    ("use a::{x, y};\nfn f() { x() }\n", "use a::{x};\nfn f() { x() }\n", ["a::y"]),
    ("use a::x;\nfn f() { g.x() }\n", "fn f() { g.x() }\n", ["a::x"]),
    ("use a::x;\nfn f() { g(0..x) }\n", None, []),
    ("use a::Draw;\nuse b::*;\npub use c::z;\nfn f() {}\n", None, []),
    ("ghost use A.B as b;\nfn f()\n    ensures { result ≡ b.c }\n{}\n", None, []),
    ("ghost use A.{◌+◌, ◌≤◌};\nfn f()\n    requires { a + b } // ≤\n{}\n", "ghost use A.{◌+◌};\nfn f()\n    requires { a + b } // ≤\n{}\n", ["A.◌≤◌"]),
    ("use a::{\n    x,\n    y,\n};\nfn f() { y }\n", "use a::{y};\nfn f() { y }\n", ["a::x"]),
]


class Imports(unittest.TestCase):
    maxDiff = None

    def test_of_definitions_and_proofs(self):
        for text, left, unused in CASES:
            with self.subTest(text=text):
                self.assertEqual(without_unused(text), (text if left is None else left, unused))

    def test_of_code(self):
        for text, left, unused in CODE_CASES:
            with self.subTest(text=text):
                self.assertEqual(code_without_unused(text, {"Draw"}), (text if left is None else left, unused))


if __name__ == "__main__":
    unittest.main()

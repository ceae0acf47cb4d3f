#!/usr/bin/env python3
"""Tests of tools/book over small made repositories: what it finds for a rule, what a claim rests on, its links, what it refuses."""

import contextlib
import io
import sys
import tempfile
import unittest
from pathlib import Path

sys.dont_write_bytecode = True
sys.path.insert(0, str(Path(__file__).resolve().parent))
from book import claims, main, markup, sources  # noqa: E402
from book.names import Names  # noqa: E402
from book.pages import Book  # noqa: E402
from book.repository import Group, Lost, Repository, groups_of  # noqa: E402
from book.rules import Cards, Found  # noqa: E402

LIST = """# What this list is.

# The machine's definitions.
wdf_model:

# Code, lowest first.
low_part: wdf_model # a part

# Laws: what holds.
law_queue: wdf_model
law_worked: wdf_model low_part
"""
QUEUES = """-- Queues. (own)
-- a queue
pub record Queue : Type 0 where
  -- who is first
  pub front : ℕ
-- its front,
-- as a number
abbrev pub takes : Queue → ℕ
takes q = q.front
abbrev pub drops : Queue → Queue
drops q = q

-- ---- who waits

abbrev pub waits : Queue → Queue
waits q = q
"""
OTHERS = "-- Others.\n-- another thing that waits\nabbrev pub waits : ℕ → ℕ\nwaits n = n\n"
DEEDS = """-- Deeds.
use Rattle.wdf_model.specs.Queues.{Queue, drops}
-- what a deed does
abbrev pub do_deed : Deed → Queue → Queue
do_deed (Take) q = drops q
-- a front is put
do_deed (Put n) q =
  record { front = n }
-- and once more
do_deed (PutAgain n) q = q
"""
DEED = "//! Deeds.\npub enum Deed {\n    /// A front is put.\n    Put { front: u32 },\n    /// It is taken.\n    Take,\n}\n"
PART = """//! A part. It has queues.
ghost use Rattle.wdf_model.specs.Queues as queues;
ghost use Rattle.wdf_model.specs.Others as others;
ghost use Rattle.wdf_model.specs.Queues.{drops};

/// The front.
pub(crate) fn takes(queue: &Queue) -> u32
    ensures { result ≡ queues.takes queue.now }
{
    queue.front
}

/// Named as a definition.
pub fn lets_go(queue: &mut Queue)
    ensures { queue.new ≡ drops queue.old }
{
    queue.front = 0;
}

pub fn stays(queue: &mut Queue)
    ensures { queue.new ≡ queues.waits queue.old }
{
    queue.front += 0;
}

pub fn waits(count: u32) -> u32
    ensures { result ≡ others.waits count }
{
    count
}

/// A deed is done.
pub fn put_one(queue: &mut Queue)
    ensures { queue.new ≡ record queue.old {
      front = do_deed (Deed.Put 1) queue.old;
    } }
{
    queue.front = 1;
}
"""
OTHER = """/// How many.
pub const MANY: [u32; 2] = [
    1,
    2,
];

impl Queue {
    /// What nobody asks.
    fn asks(&self) -> u32 {
        let most = MANY[0];
        most
    }

    fn takes(&self) -> u32 {
        7
    }
}
"""
LAW = """//! Laws.
ghost use Rattle.wdf_model.specs.Queues.{takes};

/// A law.
pub fn takes_once()
    ensures { (q : Queue) → takes q ≡ takes q }
{
}

pub fn takes_twice()
    ensures { (q : Queue) → takes q ≡ takes q }
{}
"""
FILES = {
    "crates.txt": LIST,
    "crates/wdf_model/specs/Queues.antt": QUEUES,
    "crates/wdf_model/specs/Others.antt": OTHERS,
    "crates/wdf_model/specs/Deeds.antt": DEEDS,
    "crates/wdf_model/src/lib.rt": DEED,
    "crates/low_part/src/lib.rt": PART,
    "crates/low_part/src/other.rt": OTHER,
    "crates/low_part/must-fail/front_is_zero.edit": "file: src/lib.rt\nold:     queue.front\nnew:     0\n",
    "crates/low_part/wrong/other_front.edit": "file: src/other.rt\nold:     2,\nnew:     3,\nold: most = MANY[0]\nnew: most = MANY[1]\n",
    "crates/law_queue/src/lib.rt": LAW,
    "crates/law_worked/src/lib.rt": "//! Worked.\n/// One worked run.\npub fn one_run()\n{}\n",
}


def made(folder, files):
    """A folder with these files, as a repository's root."""
    for place, text in files.items():
        path = Path(folder) / place
        path.parent.mkdir(parents=True, exist_ok=True)
        path.write_text(text, encoding="utf-8")
    return Path(folder)


class Tree(unittest.TestCase):
    """A test over a made repository."""

    def setUp(self):
        self.folders = []

    def tearDown(self):
        for folder in self.folders:
            folder.cleanup()

    def tree(self, files):
        self.folders.append(tempfile.TemporaryDirectory())
        return made(self.folders[-1].name, files)


class OfRules(Tree):
    # A rule, and what is shown: the texts of its definitions, its code, what else is edited, laws with a star where worked, wrong bodies.
    SHOWN = [
        ("a front | takes", ["abbrev pub takes : Queue → ℕ\ntakes q = q.front"], "takes", "", "takes_once takes_twice", "front_is_zero"),
        ("drops | drops | one_run | -", ["abbrev pub drops : Queue → Queue\ndrops q = q"], "lets_go", "", "one_run*", ""),
        ("kept | Queue.front | takes_once (worked) | front_is_zero", ["pub front : ℕ"], "", "takes", "takes_once*", "front_is_zero"),
        ("waits | waits (wdf_model/specs/Queues.antt) | - | -", ["abbrev pub waits : Queue → Queue\nwaits q = q"], "stays", "", "", ""),
        ("a case, and a deed | do_deed (Put and one more), Put | - | -",
         ["abbrev pub do_deed : Deed → Queue → Queue\n  ..\n-- a front is put\ndo_deed (Put n) q =\n  record { front = n }\n-- and once more\ndo_deed (PutAgain n) q = q",
          "Put { front: u32 },"], "put_one", "", "", ""),
        ("code | drops | - | other_front | low_part/src/other.rt::takes, low_part::waits", ["abbrev pub drops : Queue → Queue\ndrops q = q"], "Queue::takes waits", "MANY Queue::asks", "", "other_front"),
    ]
    REFUSED = [
        ("none | puts", "the repository has no puts"),
        ("none there | puts (wdf_model/specs/Others.antt)", "the wdf_model/specs/Others.antt has no puts"),
        ("which of two | waits", "the crate wdf_model has several waits: wdf_model/specs/Others.antt, wdf_model/specs/Queues.antt"),
        ("no case | do_deed (Sell)", "do_deed has no case Sell, and there is no such crate or file"),
        ("no law | takes | puts_once", "there is no law puts_once"),
        ("no wrong body | takes | - | front_is_one", "there is no wrong body front_is_one"),
        ("no function | takes | - | - | low_part::puts", "there is no function low_part::puts"),
        ("which of two | takes | - | - | low_part::takes", "there is no function low_part::takes"),
        ("a part too many | takes | - | - | takes | -", "can't be read: a part too many | takes | - | - | takes | -"),
        ("no code | do_deed (Take), Take | - | -", "no code"),
        ("no word on wrong bodies | drops | -", "no wrong body, and no `-` that says so"),
    ]

    def cards(self, rule):
        return Cards(Found(Names(Repository(self.tree(FILES)))), f"Queues\n{rule}\n")

    def test_what_is_shown(self):
        for rule, texts, code, edited, laws, wrong in self.SHOWN:
            with self.subTest(rule):
                cards = self.cards(rule)
                card = cards.subjects["Queues"][0]
                self.assertEqual([item.text for item, _ in card.definitions], texts)
                self.assertEqual(" ".join(item.name for item in card.code), code)
                self.assertEqual(" ".join(item.name for item in card.edited), edited)
                self.assertEqual(" ".join(law.item.name + "*" * law.is_worked for law in card.laws), laws)
                self.assertEqual(" ".join(edit.name for edit in card.wrong), wrong)
                self.assertEqual(cards.wrong, [])

    def test_what_is_refused(self):
        for rule, said in self.REFUSED:
            with self.subTest(rule):
                self.assertIn(f"rules.txt, line 2: {said}", self.cards(rule).wrong)

    def test_wrong_bodies_without_a_rule(self):
        for rule, left in [("all | takes | - | front_is_zero, other_front", []), ("one | takes | - | other_front", ["low_part/must-fail/front_is_zero.edit"])]:
            self.assertEqual(self.cards(rule).unnamed(), [f"rules.txt names no rule for the wrong body {edit}" for edit in left])


SERVE = """//! The program.
ghost use Rattle.std.specs.Prelude.{ℕ};
ghost use Rattle.low_serve.specs.Promises.{Promises, Headline};

use low_io::{Flow, Reads};

/// Serves.
pub fn serve<R: Reads>(flow: &Flow<R>) -> u8
    ensures all { Promises flow.now result }
    // The headline.
    ensures headline { Headline
        result }
    ensures last { Promises flow.now 0 }
{
    0
}
"""
PROMISES = """-- What is promised. And more of it.
use Rattle.std.specs.Prelude.{ℕ, List}
use Rattle.low_base.specs.Words as words
use Rattle.low_base.specs.Prelude.{Plan}
use Rattle.low_base.specs.declared.plan.Plan.TheVariants as plan

-- all of it
pub record Promises (n : ℕ) : Type 0 where
  -- with a comment on unneeded
  pub word : words.is_word n
  pub plan : List Plan

abbrev pub Headline : ℕ → Type 0
Headline n = IsDone n

module _ {n : ℕ} where

  abbrev pub IsDone : ℕ → Type 0
  IsDone n = record {
    done = n;
  }

  abbrev pub unneeded : ℕ → Type 0
  unneeded n = words.is_long n
"""
PROGRAM = {
    "crates.txt": "# All.\nlow_base:\nlow_io: low_base\nlow_serve: low_base low_io\n",
    "crates/low_serve/src/lib.rt": SERVE,
    "crates/low_serve/specs/Promises.antt": PROMISES,
    "crates/low_base/specs/Words.antt": "-- Words.\nuse Rattle.kit_words.specs.Words.{is_letter}\nabbrev pub is_word : ℕ → Type 0\nis_word n = is_letter n\nabbrev pub is_long : ℕ → Type 0\nis_long n = n\n",
    "crates/low_base/specs/Lists.antt": "-- Lists.\nabbrev pub Listed : Type 0 → Type 0\nListed T = T\n",
    "crates/low_base/specs/Prelude.antt": "-- Handed on.\nunfoldable pub use Rattle.low_base.specs.declared.plan.Plan.{Plan}\n",
    "crates/low_base/src/lib.rt": "//! Types.\n",
    "crates/low_base/src/plan.rt": "use crate::items::{Items, MANY};\n\n/// A plan.\npub struct Plan {\n    pub names: Items<u8, MANY>,\n}\n\npub enum Other {\n    None,\n}\n",
    "crates/low_base/src/items.rt": "use std::marker::Model;\n\npub const MANY: u64 = 4;\n\npub struct Items<T> {\n    items: Vec<T>,\n}\n\nimpl<T> Model for Items<T> {\n"
    "    ghost use Rattle.low_base.specs.Lists.{Listed};\n\n    ghost Value = { Listed T };\n}\n",
    "crates/low_io/src/lib.rt": "//! Streams.\npub trait Reads {}\n\n/// A flow.\npub struct Flow<R> {\n    inner: R,\n}\n",
    "docs/proof/CLAIMS.md": "| | claim | function | what it doesn't say |\n|---|---|---|---|\n| 1 | It is served | `serve` of `low_serve` | how |\n| 2 | It is done | `serve` of `low_serve`: `headline` | when |\n",
    "docs/proof/TRUST.md": "| crate | what |\n|---|---|\n| `low_serve` | a |\n| `low_base`, `low_io` | b |\n",
    "docs/guide/MACHINE.md": "Rules: Words; of what is\nserved: Plans, where there are.\n",
    "tools/rules.txt": "Words\na word | is_word | - | - | low_serve::serve\nPlans, where there are\n",
}


class OfClaims(Tree):
    ALL = {"Promises", "Headline", "IsDone", "is_word", "Plan", "Items", "MANY", "Listed", "Flow"}
    LOST = [
        ("crates/low_base/specs/Words.antt", "is_word n =", "IsWord n =", "crates/low_base/specs/Words.antt: a line that is of no definition: IsWord n = is_letter n"),
        ("crates/low_serve/specs/Promises.antt", "words.is_word n", "words.is_words n", "crates/low_base/specs/Words.antt has no is_words"),
        ("crates/low_serve/specs/Promises.antt", "specs.Words as", "specs.Texts as", "there is no Rattle.low_base.specs.Texts.is_word"),
        ("crates/low_serve/src/lib.rt", "pub fn serve<", "pub fn serves<", "CLAIMS.md: claim 1: there is no serve of low_serve"),
    ]

    def claims(self, files):
        root = self.tree(files)
        names = Names(Repository(root))
        return claims.claims_in(root / "docs/proof/CLAIMS.md", Found(names), names)

    def test_what_a_claim_rests_on(self):
        whole, headline = self.claims(PROGRAM)
        self.assertEqual({at.name for at in whole.reached}, self.ALL)
        self.assertEqual({at.name for at in headline.reached}, {"Headline", "IsDone"})
        self.assertEqual([[at.name for at in way] for way in claims.chain([whole], "Listed")], [["Promises", "Plan", "Items", "Listed"]])

    def test_what_is_not_found(self):
        for place, old, new, said in self.LOST:
            with self.subTest(said), self.assertRaises(Lost) as caught:
                self.claims({**PROGRAM, place: PROGRAM[place].replace(old, new)})
            self.assertEqual(str(caught.exception), said)

    def test_the_list_of_what_to_read(self):
        unlisted = "TRUST.md doesn't list low_io, of which the promises need a definition"
        pages = [
            ("`low_base`, `low_io`", "`low_base`, `law_flow`", [unlisted, "TRUST.md lists law_flow, of which the promises need no definition"]),
            (", `low_io`", "", [unlisted]),
            ("", "", []),
        ]
        for old, new, said in pages:
            root = self.tree({**PROGRAM, "docs/proof/TRUST.md": PROGRAM["docs/proof/TRUST.md"].replace(old, new)})
            self.assertEqual(claims.differences(self.claims(PROGRAM)[0].reached, root / "docs/proof/TRUST.md"), said)


    def test_what_crates_of_definitions_stand_on(self):
        uses = "spec_a uses low_c: it may use only wdf_base, wdf_model, wdf_laws and crates spec_"
        acts = "spec_a has Sum::add, which isn't a definition or a plain type"
        sums = "//! Sums.\npub struct Sum(u64);\n\nimpl Sum {{\n    pub fn {}(&{}self) -> u64\n        ensures {{ result ≡ self.old }}\n    {{\n        self.0\n    }}\n}}\n"
        for listed, text, said in [
            ("spec_a: spec_b itoa", sums.format("total", ""), []),
            ("spec_a: spec_b low_c", sums.format("total", ""), [uses]),
            ("spec_a:", sums.format("add", "mut "), [acts]),
        ]:
            root = self.tree({"crates.txt": f"# All.\nlow_c:\nspec_b:\n{listed}\n", "crates/spec_a/src/lib.rt": text})
            self.assertEqual(claims.leaks(Repository(root)), said)


class OfThePages(Tree):
    def test_a_book(self):
        book = Book(self.tree(PROGRAM))
        pages = book.pages()
        self.assertEqual(main.broken(pages), [])
        self.assertIn('<a href="crate-low_base.html#specs.Words.is_word">words.is_word</a>', pages["crate-low_serve.html"])
        self.assertIn("is_letter n", pages["rules-words.html"])
        self.assertEqual(main.unknown_subjects(book), ["docs/guide/MACHINE.md: rules.txt has no subject of what is served:"])

    def test_links_that_lead_nowhere(self):
        pages = {"a.html": '<p id="x"><a href="#x"></a><a href="b.html#y"></a></p>', "b.html": '<p id="y"></p>'}
        self.assertEqual(main.broken(pages), [])
        self.assertEqual(main.broken({**pages, "b.html": "<p></p>"}), ["a.html: a link to b.html#y"])
        self.assertEqual(main.broken({"a.html": pages["a.html"]}), ["a.html: a link to b.html#y"])

    def test_the_words(self):
        root = self.tree({**PROGRAM, "docs/guide/MACHINE.md": "", "out/book/old.html": ""})
        with contextlib.redirect_stderr(io.StringIO()), contextlib.redirect_stdout(io.StringIO()):
            self.assertEqual(main.main(root, ["--look"], "usage"), 2)
            self.assertEqual(main.main(root, ["--check"], ""), 0)
            self.assertTrue((root / "out/book/old.html").exists())
            self.assertEqual(main.main(root, [], ""), 0)
        self.assertEqual({path.name for path in (root / "out/book").iterdir()} & {"old.html", "index.html"}, {"index.html"})


class OfTexts(unittest.TestCase):
    def test_groups(self):
        self.assertEqual(groups_of(LIST), [Group("The machine's definitions", "", ["wdf_model"]), Group("Code", "lowest first", ["low_part"]), Group("Laws", "what holds", ["law_queue", "law_worked"])])
        with self.assertRaises(Lost):
            groups_of("wdf_text:\n")

    def test_comments(self):
        for comment, shown in [
            ("One `a < b`,\nand [`two`].", "<p>One <code>a &lt; b</code>, and <code>two</code>.</p>"),
            ("# Choices\n\n- **Why?** So.\n  And so.\n- b", "<h4>Choices</h4><ul><li><strong>Why?</strong> So. And so.</li><li>b</li></ul>"),
            ("Text:\n- a\n\n    code <", "<p>Text:</p><ul><li>a</li></ul><pre>code &lt;</pre>"),
        ]:
            self.assertEqual(markup.prose(comment), shown)

    def test_names_lead_on(self):
        def links(module, word):
            return {("m", "a"): "p#a", ("", "b"): "p#b", ("", "own"): "p#own"}.get((module, word))

        self.assertEqual(
            markup.source("own m.a b x.b -- b", links, "p#own"),
            '<pre>own <a href="p#a">m.a</a> <a href="p#b">b</a> x.b <span class="note">-- b</span></pre>',
        )


if __name__ == "__main__":
    unittest.main()

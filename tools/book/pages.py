"""The pages of the book, by the names of their files."""

import re
from functools import lru_cache
from pathlib import Path
from typing import Dict, List, Optional, Sequence, Tuple

from book import claims
from book.markup import STYLE, Links, escaped, inline, link, page, prose, source
from book.names import At, Definitions, Names
from book.repository import Repository
from book.rules import Card, Cards, Edit, Found, Law
from book.sources import Item, definitions_in, functions_in, head_of, text_of, types_in

LONG = 30
INTRO = """Each rule is shown with

- **definitions**: what the rule is. `docs/proof/READING.md` explains the signs and letters.
- **code**: functions whose contracts name a definition, first those of its name, most of which are said to be the definition. Then
  the functions in which a wrong body of the rule lies.
- **laws**: statements that are proved of all runs, or of all states, and that the rule is for or that rests on it.
- **worked cases**: statements that are proved of worked runs, or of a table of cases.
- **wrong bodies**: edits of the code that the prover has to refuse.

A rule of the machine without a law has those that hold of each event, `each_event_fits` and `events_do_what_they_may`. One of the
agents, of stacks, of the static check or of what is around the machine has the contracts of its code alone."""


def slug(words: str) -> str:
    return re.sub(r"[^a-z0-9]+", "-", words.lower()).strip("-")


def folded(shown: str, text: str) -> str:
    """A long text that opens at a click."""
    count = text.count("\n") + 1
    return f"<details><summary>{count} lines</summary>{shown}</details>" if count > LONG else shown


class Book:
    """What the pages are made of, and where each item is."""

    def __init__(self, root: Path) -> None:
        self.root = root
        self.repository = Repository(root)
        self.names = Names(self.repository)
        self.cards = Cards(Found(self.names), text_of(root / "tools" / "rules.txt"))
        self.claims = claims.claims_in(root / "docs" / "proof" / "CLAIMS.md", self.cards.found, self.names)
        self.anchors: Dict[Tuple[Path, int], str] = {}
        self.lines: Dict[Path, List[int]] = {}
        self.leading: Dict[Path, Links] = {}
        self.targets: Dict[At, Optional[str]] = {}
        self.items: Dict[str, Dict[str, List[Tuple[Path, List[Item]]]]] = {crate: self.items_of(crate) for crate in self.repository.names}

    # ---- where things are

    def items_of(self, crate: str) -> Dict[str, List[Tuple[Path, List[Item]]]]:
        """The definitions, types and functions of a crate by file. Each gets its place on the crate's page."""
        specs, code = self.repository.specs(crate), self.repository.code(crate)
        found = {
            "specs": [(path, definitions_in(path)) for path in specs],
            "types": [(path, types_in(path)) for path in code],
            "functions": [(path, functions_in(path)) for path in code],
        }
        taken: Dict[str, int] = {}
        for files in found.values():
            for path, items in files:
                place = self.repository.place(path)[1].rpartition(".")[0].replace("/", ".")
                for item in items:
                    name = f"{place}.{item.name.replace('::', '.')}"
                    taken[name] = taken.get(name, 0) + 1
                    self.lines.setdefault(path, []).append(item.line)
                    self.anchors[path, item.line] = f"crate-{crate}.html#{name}" + (f"-{taken[name]}" if taken[name] > 1 else "")
        return {kind: [(path, items) for path, items in files if items] for kind, files in found.items()}

    def target(self, item: Item) -> str:
        """Where an item is in the book: a field or a variant is in the type around it, a case in its definition."""
        lines = [line for line in self.lines.get(item.path, ()) if line <= item.line]
        return self.anchors[item.path, max(lines)] if lines else f"crate-{self.repository.place(item.path)[0]}.html"

    def target_at(self, at: At) -> Optional[str]:
        if at not in self.targets:
            path = self.repository.crates / at.crate / at.place
            found = next((one for one in (definitions_in(path) if path.suffix == ".antt" else types_in(path)) if one.name == at.name), None)
            self.targets[at] = self.anchors.get((path, found.line)) if found else None
        return self.targets[at]

    def links(self, path: Path) -> Links:
        """What the names in a file lead to."""
        if path in self.leading:
            return self.leading[path]
        crate, place = self.repository.place(path)
        file = self.names.file(crate, place)

        @lru_cache(maxsize=None)
        def leads(module: str, word: str) -> Optional[str]:
            if isinstance(file, Definitions) and not module and word in file.owners:
                return self.target_at(At(crate, place, file.owners[word]))
            found = self.names.perhaps(module, word, (file.names, file.modules))
            if found is None and not isinstance(file, Definitions) and not module:
                found = next(iter(self.names.types_in(crate, place, word)), None)
            return self.target_at(found) if found else None

        self.leading[path] = leads
        return leads

    def place(self, item: Item) -> str:
        return f'<span class="place">{escaped(str(item.path.relative_to(self.root)))}:{item.line}</span>'

    # ---- cards

    def item(self, kind: str, item: Item, remark: str = "") -> str:
        """An item on a card: its name, its comment and its text."""
        crate = self.repository.place(item.path)[0]
        name = link(self.target(item), f"<code>{escaped(crate)}::{escaped(item.name)}</code>")
        told = f" ({inline(remark)})" if remark else ""
        return f'<div class="part">{kind} {name}{told} {self.place(item)}</div>{prose(item.comment)}' + folded(source(item.text, self.links(item.path), self.target(item)), item.text)

    def law(self, law: Law) -> str:
        return self.item("Worked case" if law.is_worked else "Law", law.item)

    def wrong_body(self, edit: Edit) -> str:
        who = "the gate tries it" if edit.is_tried else "<code>tools/wrong_bodies.py</code> tries it"
        where = ", ".join(link(self.target(item), f"<code>{escaped(item.name)}</code>") for item in edit.items)
        out = [f'<div class="part">Wrong body {escaped(edit.name)} of {where or escaped(edit.crate)} <span class="place">{who}</span></div>']
        for _, old, new in edit.changes:
            out.append(f'<pre><span class="old">- {escaped(old.strip())}</span><span class="new">+ {escaped(new.strip())}</span></pre>')
        return "".join(out)

    def card(self, card: Card, anchor: str) -> str:
        remarks = [remark if remark and not (self.repository.crates / remark).exists() else "" for _, remark in card.definitions]
        parts = [self.item("Definition", item, remark) for (item, _), remark in zip(card.definitions, remarks)]
        parts += [self.item("Code", item) for item in card.code]
        parts += [self.item("Code that a wrong body edits", item) for item in card.edited]
        parts += [self.law(law) for law in sorted(card.laws, key=lambda law: law.is_worked)]
        if card.others:
            parts.append('<div class="part">Also ' + ", ".join(link(self.target(item), f"<code>{escaped(item.name)}</code>") for item in card.others) + "</div>")
        parts += [self.wrong_body(edit) for edit in card.wrong]
        return f'<div class="card" id="{anchor}"><h3>{inline(card.rule.words)}</h3>{"".join(parts)}</div>'

    def subject(self, name: str, cards: Sequence[Card]) -> str:
        anchors = [f"rule-{k}" for k in range(1, len(cards) + 1)]
        rows = "".join(f"<li>{link('#' + anchor, inline(card.rule.words))}</li>" for anchor, card in zip(anchors, cards))
        return page(name, f"<ol>{rows}</ol>" + "".join(self.card(card, anchor) for anchor, card in zip(anchors, cards)))

    def rules(self) -> str:
        rows = "".join(f"<tr><td>{link(f'rules-{slug(name)}.html', escaped(name))}</td><td>{len(cards)} rules</td></tr>" for name, cards in self.cards.subjects.items())
        return page("The rules, and where each is kept", prose(INTRO) + f"<table>{rows}</table>")

    # ---- crates

    def section(self, path: Path, items: Sequence[Item]) -> str:
        """The items of a file on its crate's page."""
        place = self.repository.place(path)[1]
        head = prose(head_of(path)) if path.suffix == ".antt" else ""
        out = [f"<h3>{escaped(place)}</h3>{head}"]
        for item in items:
            anchor = self.anchors[path, item.line].partition("#")[2]
            out.append(f'<div id="{escaped(anchor)}"><div class="part"><code>{escaped(item.name)}</code></div>{prose(item.comment)}')
            out.append(folded(source(item.text, self.links(path), self.target(item)), item.text) + "</div>")
        return "".join(out)

    def crate(self, name: str) -> str:
        def row(words: str, crates: Sequence[str]) -> str:
            return f"<p>{words}: {', '.join(link(f'crate-{one}.html', escaped(one)) for one in crates)}</p>" if crates else ""

        out = [prose(self.repository.head(name)), row("It uses", self.repository.uses[name]), row("It is used by", self.repository.users(name))]
        kinds = self.items[name]
        for heading, kind in (("Definitions", "specs"), ("Types and constants", "types"), ("Functions", "functions")):
            files = [(path, [item for item in items if item.is_public or kind == "specs"]) for path, items in kinds[kind]]
            if any(items for _, items in files):
                out.append(f"<h2>{heading}</h2>" + "".join(self.section(path, items) for path, items in files if items))
        inner = [(path, [item for item in items if not item.is_public]) for kind in ("types", "functions") for path, items in kinds[kind]]
        if any(items for _, items in inner):
            out.append("<h2>What other crates don't see</h2>" + "".join(self.section(path, items) for path, items in inner if items))
        wrong = [edit for edits in self.cards.found.edits.values() for edit in edits if edit.crate == name]
        if wrong:
            out.append("<h2>Wrong bodies</h2>" + "".join(self.wrong_body(edit) for edit in wrong))
        return page(name, "".join(out))

    def crates(self) -> str:
        out = []
        for heading, note, crates in self.repository.groups:
            rows = "".join(f"<tr><td>{link(f'crate-{name}.html', escaped(name))}</td><td>{inline(self.repository.first_words(name))}</td></tr>" for name in crates)
            out.append(f"<h2>{inline(heading)}</h2>" + (f"<p>{inline(note[0].upper() + note[1:])}.</p>" if note else "") + f"<table>{rows}</table>")
        return page("The crates", "".join(out))

    # ---- claims and the first page

    def needs(self, claim: claims.Claim) -> str:
        """What one has to believe of a claim, by crate."""
        by_crate: Dict[str, List[At]] = {}
        for at in claim.reached:
            by_crate.setdefault(at.crate, []).append(at)
        rows = []
        for crate in sorted(by_crate, key=self.repository.names.index):
            shown = ", ".join(link(self.target_at(at) or f"crate-{crate}.html", escaped(at.name)) for at in sorted(by_crate[crate], key=lambda at: at[1:]))
            rows.append(f"<li>{link(f'crate-{crate}.html', escaped(crate))}: {shown}</li>")
        lines = sum(self.names.lines_of(at) for at in claim.reached)
        return f"<details><summary>It rests on {len(claim.reached)} definitions and types of {len(by_crate)} crates, {lines:,} lines</summary><ul>{''.join(rows)}</ul></details>"

    def claim(self, claim: claims.Claim) -> str:
        parts = "".join(self.item("Contract of", item) for item in claim.functions)
        return f'<div class="card" id="claim-{claim.number}"><h3>{inline(claim.words)}</h3><p>Not said: {inline(claim.unsaid)}.</p>{parts}{self.needs(claim)}</div>'

    def all_claims(self) -> str:
        kits = ", ".join(f"<code>{escaped(kit)}</code>" for kit in sorted(self.names.kits))
        intro = f"<p>What each claim rests on is counted without comments. Definitions of the kit are counted nowhere; those of {kits} are used.</p>"
        return page("The claims, and what one has to believe of each", intro + "".join(self.claim(claim) for claim in self.claims))

    def index(self) -> str:
        rules = sum(len(cards) for cards in self.cards.subjects.values())
        rows = [
            ("rules.html", "The rules", f"{rules} rules, each with its definitions, code, laws and wrong bodies"),
            ("claims.html", "The claims", "what is proved of the programs, and what one has to believe of it"),
            ("crates.html", "The crates", f"{len(self.repository.names)} crates with their definitions, types and functions"),
        ]
        table = "".join(f"<tr><td>{link(target, name)}</td><td>{what}</td></tr>" for target, name, what in rows)
        search = '<p><label>A name: <input id="name" autofocus></label></p><ul id="found"></ul><script src="names.js"></script><script src="search.js"></script>'
        return page("The book", f"<p>It is written by <code>python3 tools/book</code> from the sources, as they are.</p><table>{table}</table>{search}")

    def name_list(self) -> str:
        """The names of all items, for the search of the first page."""
        rows = [f'["{item.name}","{self.anchors[path, item.line]}"]' for kinds in self.items.values() for files in kinds.values() for path, items in files for item in items]
        return "const names=[\n" + ",\n".join(rows) + "\n];\n"

    def pages(self) -> Dict[str, str]:
        """All pages."""
        found = {"index.html": self.index(), "rules.html": self.rules(), "crates.html": self.crates(), "claims.html": self.all_claims(), "book.css": STYLE}
        found["names.js"], found["search.js"] = self.name_list(), SEARCH
        for name, cards in self.cards.subjects.items():
            found[f"rules-{slug(name)}.html"] = self.subject(name, cards)
        for crate in self.repository.names:
            found[f"crate-{crate}.html"] = self.crate(crate)
        return found


SEARCH = """const field = document.getElementById("name"), list = document.getElementById("found");
field.addEventListener("input", () => {
  const word = field.value.toLowerCase();
  const found = word.length < 2 ? [] : names.filter(([name]) => name.toLowerCase().includes(word));
  found.sort(([a], [b]) => a.length - b.length);
  list.replaceChildren(...found.slice(0, 50).map(([name, target]) => {
    const row = document.createElement("li"), way = document.createElement("a");
    way.href = target;
    way.textContent = name + " (" + target.replace(/^crate-|\\.html.*/g, "") + ")";
    row.append(way);
    return row;
  }));
});
"""

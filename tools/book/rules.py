"""The rules of tools/rules.txt, each with what the sources have for it: its definitions, code, laws and wrong bodies.

A line of rules.txt is a subject, or a rule with bars between its parts: its words, and the definitions that state it, with commas
between them. Then, where what is found doesn't show most, its laws and its wrong bodies by their names; `-` says that it has none
of its own. And then its code, where the functions that are found aren't what shows the rule.

A definition is a name of MODEL, or else of the one crate that has it. In brackets after it may stand a crate or a file below crates/
that has it, or else a case of it: then that case is shown, by the first line that has the remark's first word. A law is a name, or
CRATE::NAME where several have it; `(worked)` after it says that it is of worked cases, as all laws of a crate with `worked` in its
name are. A function is CRATE::NAME, or FILE::NAME where several files have it.

Found for a rule are the functions whose contracts cite a definition of it (code). Where no laws or wrong bodies are given, the laws
over it are found, and the wrong bodies inside the code; and always what else a shown wrong body changes. A contract cites a
definition where its file imports that name, also through a file that hands it on, or says it after the name of its module. It cites a
deed where it says it after `Deed`.
"""

import re
from pathlib import Path
from typing import Callable, Dict, List, NamedTuple, Optional, Sequence, Tuple

from book.names import WORD, At, Names
from book.repository import Repository
from book.sources import DEFINITION, MEMBER, RUST, TYPE, VARIANT, Item, functions_in, item_at, item_named, row_of, text_of
from wrong_bodies import pairs_of

MODEL = "wdf_model"
LAWS = ("law_", "inv_")
TESTS = ("test_", "check_")
DEEDS = "Deed"


class Rule(NamedTuple):
    """A rule as rules.txt says it. None is what is to be found."""

    line: int
    words: str
    definitions: List[Tuple[str, Optional[str]]]
    laws: Optional[List[str]]
    edits: Optional[List[str]]
    code: Optional[List[str]]


class Edit(NamedTuple):
    """A wrong body: its changes as (file, old, new), and the functions and constants that it changes."""

    name: str
    crate: str
    path: Path
    changes: List[Tuple[str, str, str]]
    items: List[Item]

    @property
    def is_tried(self) -> bool:
        """Whether the gate tries it."""
        return self.path.parent.name == "must-fail"


class Law(NamedTuple):
    item: Item
    is_worked: bool


class Card(NamedTuple):
    """A rule with what is shown of it. `others` are laws and functions that are only named."""

    rule: Rule
    definitions: List[Tuple[Item, Optional[str]]]
    code: List[Item]
    edited: List[Item]
    laws: List[Law]
    wrong: List[Edit]
    others: List[Item]


def names_in(part: str) -> List[str]:
    return [name.strip() for name in part.split(",") if name.strip() and name.strip() != "-"]


def rule_in(line: str, number: int) -> Optional[Rule]:
    """The rule of a line, or None where it can't be read."""
    words, told, *given = (part.strip() for part in line.split("|"))
    found = [re.fullmatch(r"([A-Za-z_.']+)(?: \(([^)]*)\))?", part.strip()) for part in told.split(",") if part.strip()]
    if None in found or len(given) > 3:
        return None
    laws, edits, code = ([names_in(part) for part in given] + [None, None, None])[:3]
    return Rule(number, words, [(one.group(1), one.group(2)) for one in found], laws, edits, code)


def contract_of(item: Item) -> str:
    """A function's text from its first clause on."""
    found = re.search(r"^\s*(requires|ensures)\b.*", item.text, re.M | re.S)
    return found.group(0) if found else ""


class Found:
    """What the crates have: functions by the definitions that their contracts cite, and wrong bodies by what they change."""

    def __init__(self, names: Names) -> None:
        self.names = names
        self.repository = repository = names.repository
        self.code: Dict[At, List[Item]] = {}
        self.laws: Dict[At, List[Item]] = {}
        self.functions: Dict[str, List[Item]] = {}
        self.edits: Dict[str, List[Edit]] = {}
        self.changing: Dict[Tuple[Path, str], List[Edit]] = {}
        self.known: Dict[str, Dict[str, List[Path]]] = {}
        for crate in repository.names:
            self.gather(crate)

    def crate_of(self, item: Item) -> str:
        return self.repository.place(item.path)[0]

    def gather(self, crate: str) -> None:
        for path in self.repository.edits(crate):
            edit = self.edit_of(crate, path)
            self.edits.setdefault(edit.name, []).append(edit)
            for item in edit.items:
                self.changing.setdefault((item.path, item.name), []).append(edit)
        for path in self.repository.code(crate):
            is_test = "tests" in path.parts or crate.startswith(TESTS)
            for item in functions_in(path):
                self.functions.setdefault(item.name.split("::")[-1], []).append(item)
                if is_test or not (item.has_body or crate.startswith(LAWS)):
                    continue
                table = self.laws if crate.startswith(LAWS) else self.code
                for at in self.cited(item):
                    table.setdefault(at, []).append(item)

    def cited(self, item: Item) -> List[At]:
        """What the contract of a function cites: definitions, types, and deeds, which have no place."""
        file = self.names.file(*self.repository.place(item.path))
        found: Dict[At, None] = {}
        for module, word in dict.fromkeys(WORD.findall(contract_of(item))):
            at = At(MODEL, "", word) if module == DEEDS else self.names.perhaps(module, word, (file.names, file.modules))
            if at:
                found[at] = None
        return list(found)

    def edit_of(self, crate: str, path: Path) -> Edit:
        changes, items = list(pairs_of(path)), []
        for file, old, _ in changes:
            source = self.repository.crates / crate / file
            lines = text_of(source).split("\n") if source.is_file() else []
            at = next((item_at(source, number) for number, line in enumerate(lines) if old in line), None)
            if at:
                items += [item for item in [*functions_in(source), item_named(source, at[0])] if item and item.line == at[1]][:1]
        return Edit(path.stem, crate, path, changes, items)

    def edit(self, name: str) -> Optional[Edit]:
        """The wrong body with this name, or None where none or more than one has it."""
        found = self.edits.get(name, [])
        return found[0] if len(found) == 1 else None

    def function(self, name: str) -> Optional[Item]:
        """The function with this name, `crate::name`, `file::name` or `name` alone, or None where none or more than one has it. A
        law comes before others with its name."""
        where, _, last = name.rpartition("::")
        found = [one for one in self.functions.get(last, []) if where in ("", self.crate_of(one), str(one.path.relative_to(self.repository.crates)))]
        found = [one for one in found if self.crate_of(one).startswith(LAWS)] or found
        return found[0] if len(found) == 1 else None

    def law(self, name: str) -> Optional[Law]:
        found = re.fullmatch(r"(\S+)( \(worked\))?", name)
        item = self.function(found.group(1)) if found else None
        return Law(item, bool(found.group(2)) or "worked" in self.crate_of(item)) if item else None

    def names_of(self, crate: str) -> Dict[str, List[Path]]:
        """What a crate defines, each name with its files: definitions before types, code, fields and variants."""
        if crate not in self.known:
            names: Dict[str, List[Path]] = {}
            specs, code = self.repository.specs(crate), self.repository.code(crate)
            for paths, form in ((specs, DEFINITION), (specs, TYPE), (code, RUST), (specs, MEMBER), (code, VARIANT)):
                found: Dict[str, List[Path]] = {}
                for path in paths:
                    for name in dict.fromkeys(form.findall(text_of(path))):
                        found.setdefault(name, []).append(path)
                for name, files in found.items():
                    names.setdefault(name, files)
            self.known[crate] = names
        return self.known[crate]

    def homes(self, name: str, remark: Optional[str]) -> Tuple[str, List[Path]]:
        """Where a rule looks for a definition, and the files there that have it."""
        crates = self.repository.crates
        if remark and (crates / remark).is_file():
            return remark, [crates / remark] if item_named(crates / remark, name) else []
        if remark in self.repository.names:
            return f"crate {remark}", self.names_of(remark).get(name, [])
        found = self.names_of(MODEL).get(name, []) if MODEL in self.repository.names else []
        if found:
            return f"crate {MODEL}", found
        specs = [path for crate in self.repository.names if not crate.startswith(TESTS) for path in self.defining(crate, name)]
        return "repository", specs

    def defining(self, crate: str, name: str) -> List[Path]:
        """The files of definitions of a crate that define a name."""
        return [path for path in self.names_of(crate).get(name, []) if path.suffix == ".antt" and any(form.search(text_of(path)) for form in (DEFINITION, TYPE))]


class Cards:
    """The cards of all rules. What rules.txt names and isn't there is in `wrong`, a line each."""

    def __init__(self, found: Found, text: str) -> None:
        self.found = found
        self.repository = found.repository
        self.wrong: List[str] = []
        self.subjects: Dict[str, List[Card]] = {}
        subject = ""
        for number, line in enumerate(text.split("\n"), 1):
            if not line or line.startswith("#"):
                continue
            if "|" not in line:
                subject = line
                self.subjects[subject] = []
                continue
            rule = rule_in(line, number)
            if rule is None:
                self.say(number, f"can't be read: {line}")
            else:
                self.subjects.setdefault(subject, []).append(self.card_of(rule))

    def say(self, line: int, what: str) -> None:
        self.wrong.append(f"rules.txt, line {line}: {what}")

    def definition(self, rule: Rule, name: str, remark: Optional[str]) -> Optional[Item]:
        """A definition of a rule, or of one with a remark the case that it names. What isn't there is said."""
        last = name.split(".")[-1]
        where, files = self.found.homes(last, remark)
        if len(files) != 1:
            few = ": " + ", ".join(str(path.relative_to(self.repository.crates)) for path in files) if files else ""
            self.say(rule.line, f"the {where} has {'several' if files else 'no'} {name}{few}")
            return None
        item = item_named(files[0], last)
        if remark and not where.endswith(remark) and item:
            case = row_of(item, remark)
            if case is None:
                self.say(rule.line, f"{name} has no case {remark}, and there is no such crate or file")
            return case
        return item._replace(name=name) if item else None

    def those(self, rule: Rule, names: Sequence[str], find: Callable, kind: str) -> List:
        """What a rule names of one kind. What isn't there is said."""
        found = [(name, find(name)) for name in names]
        for name, one in found:
            if one is None:
                self.say(rule.line, f"there is no {kind} {name}")
        return [one for _, one in found if one is not None]

    def citing(self, item: Item, table: Dict[At, List[Item]]) -> List[Item]:
        """The functions that cite a definition, a type of code or a deed."""
        crate, place = self.repository.place(item.path)
        name = item.name.split(".")[-1]
        return table.get(At(crate, place, name), []) or (table.get(At(crate, "", name), []) if place.endswith(".rt") else [])

    def card_of(self, rule: Rule) -> Card:
        shown = [(self.definition(rule, name, remark), remark) for name, remark in rule.definitions]
        definitions = [(item, remark) for item, remark in shown if item]
        named = {name.split("::")[-1] for name in rule.laws or ()}
        citing = [(item.name.split(".")[-1], [one for one in self.citing(item, self.found.code) if one.name not in named]) for item, _ in definitions]
        code, others = first_few(code_of(citing))
        if rule.code is not None:
            code, others = self.those(rule, rule.code, self.found.function, "function"), []
        laws, more = self.laws_of(rule, definitions)
        wrong = self.wrong_of(rule, citing)
        edited = list(dict.fromkeys(item for edit in wrong for item in edit.items if item not in code and item not in [law.item for law in laws]))
        card = Card(rule, definitions, code, edited, laws, wrong, others + more)
        self.look(card)
        return card

    def laws_of(self, rule: Rule, definitions: Sequence[Tuple[Item, Optional[str]]]) -> Tuple[List[Law], List[Item]]:
        if rule.laws is not None:
            return self.those(rule, rule.laws, self.found.law, "law"), []
        found = sorted({law for item, _ in definitions for law in self.citing(item, self.found.laws)}, key=lambda law: (law.name, law.path))
        few, others = first_few(found)
        return [Law(item, "worked" in self.found.crate_of(item)) for item in few], others

    def wrong_of(self, rule: Rule, citing: Sequence[Tuple[str, List[Item]]]) -> List[Edit]:
        if rule.edits is not None:
            return self.those(rule, rule.edits, self.found.edit, "wrong body")
        edits = {edit.path: edit for _, items in citing for item in items for edit in self.found.changing.get((item.path, item.name), [])}
        return first_few(sorted(edits.values(), key=lambda edit: edit.name))[0]

    def look(self, card: Card) -> None:
        """Says what a rule lacks: a definition, code, and a wrong body unless the rule says that it has none of its own."""
        if not card.definitions:
            self.say(card.rule.line, "no definition")
        if not card.code + card.edited:
            self.say(card.rule.line, "no code")
        if not card.wrong and card.rule.edits is None:
            self.say(card.rule.line, "no wrong body, and no `-` that says so")

    def unnamed(self) -> List[str]:
        """The wrong bodies that no rule shows."""
        shown = {edit.path for cards in self.subjects.values() for card in cards for edit in card.wrong}
        return [f"rules.txt names no rule for the wrong body {edit.path.relative_to(self.repository.crates)}"
                for edits in self.found.edits.values() for edit in edits if edit.path not in shown]


def first_few(items: Sequence, most: int = 3) -> Tuple[List, List]:
    return list(items[:most]), list(items[most:])


def code_of(citing: Sequence[Tuple[str, List[Item]]], few: int = 3) -> List[Item]:
    """The code of some definitions, each with the functions that cite it: first those that have a definition's name, then the few
    that cite a definition that no function is named for; all where there is none of either."""
    named: List[Item] = []
    others: List[Item] = []
    rest: List[Item] = []
    for definition, functions in citing:
        same = [item for item in functions if item.name.split("::")[-1] == definition]
        named += same
        others += functions if not same and len(set(functions)) <= few else []
        rest += functions

    def order(items: Sequence[Item]) -> List[Item]:
        return sorted(set(items), key=lambda item: (not item.is_public, item.path, item.line))

    return order(named) + [item for item in order(others) if item not in named] or order(rest)

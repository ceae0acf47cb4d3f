"""What names mean: which definition or type a name in a definition or in a contract is of, and what all of them need.

A definition needs what it names: definitions of its own file, and those that its file imports, from a file of definitions or from
code. A type of code needs the types of its fields, and what its `impl Model` names. Libraries of the kit are only named.
"""

import re
from pathlib import Path
from typing import Dict, Iterable, Iterator, List, NamedTuple, Optional, Set, Tuple, Union

from book.repository import Lost, Repository
from book.sources import definition_text, text_of

NAME = r"[A-Za-z_][A-Za-z0-9_'\-]*"
RECORD = re.compile(rf"^(?:pub )?(?:record|data) ({NAME})")
DEFINITION = re.compile(rf"^(?:(?:abbrev|unfoldable)(?: pub)?|pub)? ?({NAME}) :")
MEMBER = re.compile(rf"^  (?:pub )?({NAME}) :")
USE = re.compile(r"^\s*(?:ghost )?(?:unfoldable )?(?:pub )?use Rattle\.(\w+)\.(?:specs\.)?([A-Za-z0-9_.']*?)(?:\.\{([^}]*)\}| as (\w+))?;?\s*$")
WORD = re.compile(rf"(?:({NAME})\.)?({NAME})")
TYPE = re.compile(r"^(?:pub(?:\([a-z]+\))? )?(?:struct|enum|type|const) ([A-Za-z_][A-Za-z0-9_]*)", re.M)
RUST_USE = re.compile(r"^(?:pub(?:\([a-z]+\))? )?use ((?:crate|super|self|\w+)(?:::\w+)*)::(?:\{([^}]*)\}|(\w+)(?: as \w+)?);", re.M)


class At(NamedTuple):
    """A definition, or a type of code: its crate, its file's place in the crate, and its name."""

    crate: str
    place: str
    name: str


# (crate, path, name) by name, and (crate, path) by the name of a module.
Imports = Tuple[Dict[str, Tuple[str, str, str]], Dict[str, Tuple[str, str]]]


def imports_of(text: str) -> Imports:
    """What the `use` lines of a text give."""
    names: Dict[str, Tuple[str, str, str]] = {}
    modules: Dict[str, Tuple[str, str]] = {}
    for line in text.split("\n"):
        found = USE.match(line)
        if not found:
            if re.match(r"\s*(?:ghost )?(?:unfoldable )?(?:pub )?use Rattle\.", line):
                raise Lost(f"an import that can't be read: {line.strip()}")
            continue
        crate, path, inside, module = found.groups()
        if module:
            modules[module] = (crate, path)
        for name in (inside or "").split(","):
            if name.strip():
                old, _, new = name.strip().partition(" as ")
                names[new or old] = (crate, path, old)
    return names, modules


class Definitions:
    """A file of definitions: the text of each, which one each name is of, and what is imported."""

    def __init__(self, text: str) -> None:
        self.texts: Dict[str, List[str]] = {}
        self.owners: Dict[str, str] = {}
        self.names, self.modules = imports_of(text)
        last = None
        for line in text.split("\n"):
            told = line.strip()
            if not told or told.startswith(("--", "use ", "pub use ", "unfoldable pub use ", "mod ", "pub mod ")):
                continue
            found = RECORD.match(line) or DEFINITION.match(line)
            if found:
                last = found.group(1)
                self.owners[last] = last
            elif last is None or not (line[0] in " }])" or told.split()[0] == last):
                raise Lost(f"a line that is of no definition: {told}")
            member = MEMBER.match(line)
            if member:
                self.owners.setdefault(member.group(1), last)
            self.texts.setdefault(last, []).append(line)


class Code:
    """A file of code: its types with their models, and what it imports for contracts and for code."""

    def __init__(self, text: str) -> None:
        self.text = text
        self.names, self.modules = imports_of(text)
        self.types: Dict[str, str] = {}
        for found in TYPE.finditer(text):
            end = re.compile(r"^\}|;$|\{\}$", re.M).search(text, found.end())
            self.types[found.group(1)] = text[found.start() : end.end() if end else len(text)]
        self.uses: Dict[str, str] = {}
        for path, inside, one in RUST_USE.findall(text):
            for name in (inside or one).split(","):
                self.uses[name.split(" as ")[-1].strip()] = path.split("::")[0]

    def model_of(self, name: str) -> str:
        """The `impl Model` of a type, or nothing."""
        found = re.search(rf"^impl(?:<[^\n]*>)? Model for {name}\b[^\n]*\{{\n.*?^\}}", self.text, re.M | re.S)
        return found.group(0) if found else ""


class Names:
    """All files, each read once."""

    def __init__(self, repository: Repository) -> None:
        self.repository = repository
        self.files: Dict[Tuple[str, str], Union[Definitions, Code]] = {}
        self.places: Dict[str, Dict[str, str]] = {}
        self.kits: Set[str] = set()
        self.there = {repository.place(path) for crate in repository.names for path in (*repository.specs(crate), *repository.code(crate))}
        self.meanings: Dict[Tuple[str, str, Optional[str]], Optional[At]] = {}
        self.needed: Dict[At, List[At]] = {}

    def file(self, crate: str, place: str) -> Union[Definitions, Code]:
        if (crate, place) not in self.files:
            path = self.repository.crates / crate / place
            try:
                self.files[crate, place] = Definitions(definition_text(path)) if place.endswith(".antt") else Code(text_of(path))
            except Lost as lost:
                raise Lost(f"crates/{crate}/{place}: {lost}") from lost
        return self.files[crate, place]

    def place_of_type(self, crate: str, name: str) -> Optional[str]:
        """The file of a crate in which a type is, or None."""
        if crate not in self.places:
            found: Dict[str, str] = {}
            for path in self.repository.code(crate):
                place = self.repository.place(path)[1]
                for kind in self.file(crate, place).types:
                    found.setdefault(kind, place)
            self.places[crate] = found
        return self.places[crate].get(name)

    def type_at(self, crate: str, words: List[str]) -> At:
        """The type of code that the words of an import from `declared` or `contracts` name."""
        for count in range(len(words) - 1, -1, -1):
            place = f"src/{'/'.join(words[1 : count + 1])}.rt" if count else "src/lib.rt"
            if count + 1 < len(words) and (crate, place) in self.there:
                kind = words[count + 1]
                found = place if kind in self.file(crate, place).types else self.place_of_type(crate, kind)
                if found:
                    return At(crate, found, kind)
        raise Lost(f"there is no type Rattle.{crate}.specs.{'.'.join(words)}")

    def at(self, crate: str, path: str, name: Optional[str]) -> Optional[At]:
        """What an imported name is, or None where it is the kit's, or a whole file."""
        told = crate, path, name
        if told not in self.meanings:
            self.meanings[told] = self.found_at(crate, path, name)
        return self.meanings[told]

    def found_at(self, crate: str, path: str, name: Optional[str]) -> Optional[At]:
        if crate not in self.repository.uses:
            self.kits.add(crate)
            return None
        words = [*(word for word in path.split(".") if word), *([name] if name else [])]
        words = [word for word in words if word not in ("TheConstants", "TheVariants")]
        if words[0] in ("declared", "contracts"):
            return self.type_at(crate, words)
        for count in range(len(words), 0, -1):
            place = f"specs/{'/'.join(words[:count])}.antt"
            if (crate, place) in self.there:
                return self.at_in(crate, place, words[count:])
        raise Lost(f"there is no Rattle.{crate}.specs.{'.'.join(words)}")

    def at_in(self, crate: str, place: str, words: List[str]) -> Optional[At]:
        """What the words after a file of definitions name: one of its own, or one that it hands on."""
        if not words:
            return None
        file = self.file(crate, place)
        if words[0] in file.owners:
            return At(crate, place, file.owners[words[0]])
        if words[0] in file.names:
            return self.at(*file.names[words[0]])
        if words[0] in file.modules and len(words) > 1:
            return self.at(*file.modules[words[0]], words[1])
        raise Lost(f"crates/{crate}/{place} has no {words[0]}")

    def meaning(self, module: str, word: str, imports: Imports) -> Optional[At]:
        """What `module.word`, or a word alone, is of what is imported."""
        names, modules = imports
        if module in modules:
            return self.at(*modules[module], word)
        if module in names:
            return self.at(*names[module])
        if not module and word in names:
            return self.at(*names[word])
        return None

    def perhaps(self, module: str, word: str, imports: Imports) -> Optional[At]:
        """The same, or None where a parameter or a field has the name of a module."""
        try:
            return self.meaning(module, word, imports)
        except Lost:
            return None

    def named_in(self, text: str, imports: Imports) -> Iterator[At]:
        """What a text names of what is imported."""
        for module, word in WORD.findall(text):
            found = self.meaning(module, word, imports)
            if found:
                yield found

    def needs(self, at: At) -> Iterator[At]:
        """What one definition or one type of code names."""
        file = self.file(at.crate, at.place)
        if isinstance(file, Definitions):
            text = "\n".join(file.texts[at.name])
            for module, word in WORD.findall(text):
                for one in (module, word):
                    if one in file.owners and file.owners[one] != at.name:
                        yield At(at.crate, at.place, file.owners[one])
            yield from self.named_in(text, (file.names, file.modules))
            return
        yield from self.types_in(at.crate, at.place, file.types[at.name])
        model = file.model_of(at.name)
        if model:
            names, modules = imports_of(model)
            body = "\n".join(line for line in model.split("\n")[1:] if "ghost use" not in line)
            yield from self.named_in(body, ({**file.names, **names}, {**file.modules, **modules}))

    def types_in(self, crate: str, place: str, text: str) -> Iterator[At]:
        """The types of the repository that a piece of code names."""
        file = self.file(crate, place)
        text = re.sub(r"//[^\n]*|#\[[^\]]*\]", "", text)
        for word in dict.fromkeys(re.findall(r"[A-Za-z_]\w*", text)):
            if word in file.types:
                yield At(crate, place, word)
            elif word in file.uses:
                home = crate if file.uses[word] in ("crate", "super", "self") else file.uses[word]
                found = self.place_of_type(home, word) if home in self.repository.names else None
                if found:
                    yield At(home, found, word)

    def named_by(self, path: Path, text: str) -> List[At]:
        """What a contract in a file of code names."""
        crate, place = self.repository.place(path)
        file = self.file(crate, place)
        return [*self.named_in(text, (file.names, file.modules)), *self.types_in(crate, place, text)]

    def reached(self, first: Iterable[At]) -> Dict[At, Optional[At]]:
        """All that these need, with them, nearest first: each with what names it, or None."""
        found: Dict[At, Optional[At]] = dict.fromkeys(first)
        waiting = list(found)
        for at in waiting:
            if at not in self.needed:
                self.needed[at] = list(dict.fromkeys(self.needs(at)))
            for following in self.needed[at]:
                if following not in found:
                    found[following] = at
                    waiting.append(following)
        return found

    def lines_of(self, at: At) -> int:
        """The lines of a definition or a type, without imports and comments."""
        file = self.file(at.crate, at.place)
        text = "\n".join(file.texts[at.name]) if isinstance(file, Definitions) else file.types[at.name] + "\n" + file.model_of(at.name)
        return sum(1 for line in text.split("\n") if line.strip() and not line.strip().startswith("//") and "ghost use" not in line)

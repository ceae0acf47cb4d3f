#!/usr/bin/env python3
"""Says which names in README.md and the pages below docs/ name nothing: paths, crates, functions of crates, files, places of pages.

Looked at are words in backquotes and links. A path is what has a slash and begins with a folder of the repository; one with a
part in capitals, as crates/NAME/out, is a form. A word that begins as crates do is a crate, a function of one or a script. `f`
of `crate` needs an f there: a function, a type, a definition, or a field. NAME.antt and NAME.rt have to be some crate's. And
tools/README.md names each script of tools/ but for tests.
"""

import re
import sys
from pathlib import Path

ROOT = Path(__file__).resolve().parent.parent
# How many bytes all documents together may have.
MOST = 250_000

CODE = re.compile(r"`([^`\n]+)`")
NAME = re.compile(r"[a-z]+_[a-z_0-9]+")
OF_CRATE = re.compile(r"((?:`[A-Za-z_0-9.]+`(?:,| and)? )+)(?:in|of) `([a-z]+_[a-z_0-9]+)`")
LINK = re.compile(r"\]\(([^)\s]+)\)")
DEFINED = re.compile(
    r"(?:\bfn|\bstruct|\benum|\btrait|\bconst|\brecord|\bdata|\bmod) ([A-Za-z_]\w*)|^ *(?:(?:abbrev |unfoldable )?pub )?([A-Za-z_][\w']*) ?:|^    ([A-Z]\w*)\b"
    r"|\bensures ([a-z_]+) \{",
    re.M,
)


def defined_in(crate):
    """All names that a crate's files define."""
    names = set()
    for path in [*(crate / "src").rglob("*.rt"), *(crate / "specs").rglob("*.antt")]:
        for found in DEFINED.findall(path.read_text(encoding="utf-8")):
            names.update(name for name in found if name)
    return names


def places_of(text):
    """The places in a page that a link can name, from its headings."""
    return {re.sub(r"[^a-z0-9 _-]", "", head.lower()).strip().replace(" ", "-") for head in re.findall(r"^#+ (.*)$", text, re.M)}


class Names:
    """What the repository has."""

    def __init__(self, root):
        self.root = root
        self.folders = {path.name for path in root.iterdir() if path.is_dir()}
        self.crates = {path.name: path for path in (root / "crates").iterdir() if path.is_dir()}
        self.fronts = {name.split("_")[0] for name in self.crates if "_" in name}
        sources = [path for crate in self.crates.values() for path in crate.rglob("*") if path.suffix in (".rt", ".antt")]
        self.files = {path.name for path in sources} | {f"{path.parent.name}/{path.name}" for path in sources}
        self.scripts = {path.stem for folder in ("tools", "bench") if (root / folder).is_dir() for path in (root / folder).rglob("*.py")}
        self.known = {}

    def of(self, crate):
        if crate not in self.known:
            self.known[crate] = defined_in(self.crates[crate])
        return self.known[crate]

    def lacks(self, word):
        """Whether a word in backquotes names nothing."""
        if "/" in word and " " not in word and word.split("/")[0] in self.folders:
            parts = re.sub(r"[.,]$", "", word).split("/")
            if any(re.search(r"[*<]|\.\.", part) or re.fullmatch(r"[A-Z]{3,}", part) for part in parts):
                return False
            return not (self.root / "/".join(parts)).exists()
        if NAME.fullmatch(word) and word.split("_")[0] in self.fronts:
            return word not in self.crates and word not in self.scripts and not any(word in self.of(crate) for crate in self.crates)
        if re.fullmatch(r"(?:\w+/)?\w+\.(?:rt|antt)", word):
            return word not in self.files
        return False


def has_place(target, place):
    """Whether a link can name this place: a heading of a page, a line of another file. Which line is left to who wrote it."""
    if target.suffix != ".md":
        return re.fullmatch("L[0-9]+", place) is not None
    return place in places_of(target.read_text(encoding="utf-8"))


def wrong_in(page, names):
    """What names nothing in a page, a line each."""
    whole = page.read_text(encoding="utf-8")
    text = re.sub(r"^```.*?^```$", lambda block: "\n" * block.group(0).count("\n"), whole, flags=re.M | re.S)
    for number, line in enumerate(text.split("\n"), 1):
        for word in CODE.findall(line):
            if names.lacks(word):
                yield number, word
        for link in LINK.findall(re.sub(r"`[^`]*`", "", line)):
            path, _, place = link.partition("#")
            if "://" in path:
                continue
            target = (page.parent / path).resolve() if path else page
            if not target.exists() or (place and not has_place(target, place)):
                yield number, link
    for found in OF_CRATE.finditer(text.replace("\n", " ")):
        crate = found.group(2)
        for word in re.findall(r"`([^`]+)`", found.group(1)):
            last = re.split(r"::|\.", word)[-1]
            if crate in names.crates and last not in names.of(crate) and word not in names.files and word not in names.crates:
                yield text.count("\n", 0, found.start()) + 1, f"{word} of {crate}"


def not_in_the_index(root):
    """The scripts of tools/ but for tests that its index doesn't name, and those that it names and that aren't there."""
    told = {word for word in CODE.findall((root / "tools/README.md").read_text(encoding="utf-8")) if re.fullmatch(r"\w+\.py", word)}
    there = {path.name for path in (root / "tools").glob("*.py")}
    return sorted(name for name in there ^ told if name in told or not name.startswith("test_"))


def documents(root):
    """All that a person reads beside the code."""
    places = ("*.md", "docs/**/*.md", "tools/*.md", "wip/*.md", "editors/*.md")
    return sorted(path for place in places for path in root.glob(place))


def too_long(root):
    """That the documents together are longer than they may be, or None."""
    size = sum(path.stat().st_size for path in documents(root))
    return f"the documents together have {size} bytes, more than {MOST}" if size > MOST else None


def main():
    names = Names(ROOT)
    wrong = [
        f"{page.relative_to(ROOT)}: {what} (line {number})"
        for page in [ROOT / "README.md", *sorted((ROOT / "docs").rglob("*.md"))]
        for number, what in wrong_in(page, names)
    ]
    wrong += [f"tools/README.md: {script}" for script in not_in_the_index(ROOT)]
    wrong += filter(None, [too_long(ROOT)])
    sys.exit("\n".join(wrong) if wrong else 0)


if __name__ == "__main__":
    main()

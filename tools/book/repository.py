"""The crates of a repository: its list with groups, their heads and their files."""

import re
from pathlib import Path
from typing import Dict, List, NamedTuple, Tuple

from book.sources import comment_of, text_of


class Lost(Exception):
    """What the sources name isn't there, or has a form that can't be read."""


class Group(NamedTuple):
    """Crates that stand below one comment of crates.txt: the comment up to its first comma or colon, and the rest of it."""

    heading: str
    note: str
    crates: List[str]


def groups_of(text: str) -> List[Group]:
    """The groups of a list of crates. A comment that is followed by an empty line is none."""
    groups: List[Group] = []
    comment: List[str] = []
    for line in (line.strip() for line in text.split("\n")):
        if line.startswith("#"):
            comment.append(line.lstrip("# "))
        elif line:
            if comment:
                heading, note = re.fullmatch(r"([^,:]*)(?:[,:] *(.*))?", " ".join(comment).rstrip(".")).groups()
                groups.append(Group(heading, note or "", []))
                comment = []
            if not groups:
                raise Lost(f"crates.txt: {line.split(':')[0]} is in no group")
            groups[-1].crates.append(re.split(r"[ :]", line)[0])
        else:
            comment = []
    return groups


class Repository:
    """The crates below a folder that has crates.txt and crates/."""

    def __init__(self, root: Path) -> None:
        self.root = root
        self.crates = root / "crates"
        listed = text_of(root / "crates.txt")
        self.groups = groups_of(listed)
        self.names = [name for group in self.groups for name in group.crates]
        self.uses: Dict[str, List[str]] = {}
        for line in listed.split("\n"):
            name, _, below = line.partition("#")[0].partition(":")
            if name.strip():
                self.uses[name.split()[0]] = [one for one in below.split() if one in self.names]

    def users(self, crate: str) -> List[str]:
        """The crates that use a crate, in the list's order."""
        return [name for name in self.names if crate in self.uses[name]]

    def sources(self, crate: str, folder: str, suffix: str) -> List[Path]:
        """The files of a folder of a crate (src, specs) with this ending."""
        return sorted((self.crates / crate / folder).rglob("*" + suffix))

    def specs(self, crate: str) -> List[Path]:
        return self.sources(crate, "specs", ".antt")

    def code(self, crate: str) -> List[Path]:
        return self.sources(crate, "src", ".rt")

    def edits(self, crate: str) -> List[Path]:
        """The wrong bodies of a crate: first those that the gate tries."""
        folder = self.crates / crate
        return [*sorted(folder.glob("must-fail/*.edit")), *sorted(folder.glob("wrong/*.edit"))]

    def head(self, crate: str) -> str:
        """The head of a crate's first file, in which it says what it is."""
        for name in ("src/lib.rt", "src/main.rt"):
            path = self.crates / crate / name
            if path.is_file():
                lines = []
                for line in text_of(path).split("\n"):
                    if not line.startswith("//!"):
                        break
                    lines.append(line)
                if not lines:
                    raise Lost(f"crates/{crate}/{name} has no head that says what the crate is")
                return comment_of(lines)
        raise Lost(f"crates.txt has {crate}, and crates/{crate} has no src/lib.rt")

    def first_words(self, crate: str) -> str:
        """The first sentence of a crate's head."""
        return re.split(r"(?<=[a-z0-9`)])[.](?:\s|$)", " ".join(self.head(crate).split("\n\n")[0].split("\n")))[0]

    def place(self, path: Path) -> Tuple[str, str]:
        """The crate of a file, and the file's place in it."""
        inside = path.relative_to(self.crates)
        return inside.parts[0], "/".join(inside.parts[1:])

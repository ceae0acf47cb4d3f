"""The words of `python3 tools/book`, and what the gate looks at."""

import re
import sys
from pathlib import Path
from typing import Dict, List, Sequence

from book import claims
from book.pages import Book
from book.repository import Lost
from book.sources import text_of

# A line of a document that names subjects of rules.
SUBJECTS = re.compile(r"^Rules: ((?:[^\n]|\n(?!\n))*)", re.M)


def broken(pages: Dict[str, str]) -> List[str]:
    """The links that lead to no page, or to no place of one."""
    places = {name: set(re.findall(r' id="([^"]*)"', text)) for name, text in pages.items()}
    wrong = []
    for name, text in pages.items():
        for target in sorted(set(re.findall(r' (?:href|src)="([^"]*)"', text))):
            file, _, place = target.partition("#")
            if (file or name) not in pages or (place and place not in places[file or name]):
                wrong.append(f"{name}: a link to {target}")
    return wrong


def unknown_subjects(book: Book) -> List[str]:
    """The subjects of rules that a document names and that rules.txt doesn't have."""
    known = sorted(book.cards.subjects, key=len, reverse=True)
    wrong = []
    for path in sorted((book.root / "docs").rglob("*.md")):
        for found in SUBJECTS.finditer(text_of(path)):
            told = " ".join(found.group(1).split())
            for name in known:
                told = told.replace(name, "")
            left = [word for word in re.split(r"[,;.]", re.sub(r"\([^)]*\)", "", told)) if word.strip()]
            wrong += [f"{path.relative_to(book.root)}: rules.txt has no subject {word.strip()}" for word in left]
    return wrong


def look(book: Book, pages: Dict[str, str]) -> List[str]:
    """What is wrong with the book and what leads to it, a line each."""
    trust = book.root / "docs" / "proof" / "TRUST.md"
    unlisted = claims.differences(claims.promised(book.claims, book.names), trust)
    return [*book.cards.wrong, *book.cards.unnamed(), *broken(pages), *unknown_subjects(book), *unlisted, *claims.leaks(book.repository)]


def write(pages: Dict[str, str], folder: Path) -> None:
    """Writes the pages into a folder, in which nothing else stays."""
    folder.mkdir(parents=True, exist_ok=True)
    for path in folder.iterdir():
        if path.name not in pages:
            path.unlink()
    for name, text in pages.items():
        (folder / name).write_text(text, encoding="utf-8")


def main(root: Path, words: Sequence[str], usage: str) -> int:
    """What the words ask for; the exit status."""
    if not (words in ([], ["--check"]) or (len(words) == 2 and words[0] == "--why")):
        print(usage.strip(), file=sys.stderr)
        return 2
    try:
        book = Book(root)
        if words and words[0] == "--why":
            for way in claims.chain(book.claims, words[1]):
                print("a claim", *(f"names {at.name} ({at.crate}/{at.place})" for at in way), sep="\n  ")
            return 0
        pages = book.pages()
        wrong = look(book, pages)
    except Lost as lost:
        wrong = [str(lost)]
    for line in wrong:
        print(line, file=sys.stderr)
    if wrong:
        return 1
    if not words:
        write(pages, root / "out" / "book")
        print(f"{len(pages)} files in out/book: open out/book/index.html")
    return 0

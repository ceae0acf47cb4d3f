"""The pages of `--help`, made from the table of words."""
from __future__ import annotations

import textwrap
from typing import Iterable, List, Tuple

from .call import options_of
from .words import COMMON, STATUSES, Example, Option, Program, Word

WIDTH, INDENT = 80, 2


def written(option: Option) -> str:
    """An option as it is typed."""
    value = f"[={option.value}]" if option.choices else f" {option.value}" if option.value else ""
    short = f"{option.short}, " if option.short else ""
    return f"{short}{option.name}{value}"


def paragraph(text: str) -> str:
    """A paragraph in lines of the page's width."""
    return textwrap.fill(text, WIDTH)


def table(rows: Iterable[Tuple[str, str]]) -> str:
    """Rows of what is typed and what it means, the meanings below one another."""
    listed = list(rows)
    room = min(max(len(typed) for typed, _ in listed), 26) + INDENT * 2
    lines: List[str] = []
    for typed, meaning in listed:
        head = " " * INDENT + typed
        if len(head) + 2 > room:
            lines.append(head)
            head = ""
        lines += textwrap.wrap(meaning, WIDTH, initial_indent=head.ljust(room), subsequent_indent=" " * room)
    return "\n".join(lines)


def examples(of: Iterable[Example], program: Program) -> str:
    """Examples, each with what it is for above it."""
    return "\n".join(f"  # {one.meaning}\n  {one.line.format(program=program.name)}" for one in of)


def options(of: Iterable[Option]) -> str:
    """The options, and what each does."""
    return table((written(option), option.meaning) for option in of)


def of_program(program: Program) -> str:
    """The page of a program."""
    parts = [
        f"{program.name}: {program.meaning}",
        f"Usage: {program.name} WORD [NUMBER..] [FILE..] [OPTION..]\n       {program.name} WORD --help",
        *(paragraph(text) for text in program.more),
        "Words\n" + table((word.forms[0], word.meaning) for word in program.words),
        "Options stand anywhere\n" + options(COMMON),
        "Examples\n" + examples(program.examples, program),
        "Status\n" + table((str(number), meaning) for number, meaning in STATUSES.items()),
    ]
    return "\n\n".join(parts)


def of_word(program: Program, word: Word) -> str:
    """The page of a word."""
    forms = "\n".join(f"{'Usage: ' if number == 0 else '       '}{program.name} {form}" for number, form in enumerate(word.forms))
    parts = [
        paragraph(f"{program.name} {word.name}: {word.meaning}"),
        forms,
        *(paragraph(text) for text in word.more),
        "Options stand anywhere\n" + options(options_of(word)),
        "Examples\n" + examples(word.examples, program),
    ]
    return "\n\n".join(parts)

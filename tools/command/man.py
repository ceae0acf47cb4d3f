"""Man pages, made from the table of words."""
from __future__ import annotations

import re
from typing import Iterable, List

from . import running
from .help_pages import written
from .words import COMMON, PROGRAMS, STATUSES, Example, Option, Program, Word


def escaped(text: str) -> str:
    """A text as roff shows it: code in bold, and no mark of roff's own."""
    text = text.replace("\\", "\\e").replace("-", "\\-")
    text = re.sub(r"`([^`]*)`", r"\\fB\1\\fR", text)
    return "\\&" + text if text.startswith((".", "'")) else text


def heading(title: str) -> str:
    """The head of a section."""
    return f".SH {title}"


def tagged(tag: str, text: str) -> List[str]:
    """A paragraph below what it is about."""
    return [".TP", f"\\fB{escaped(tag)}\\fR", escaped(text)]


def examples(of: Iterable[Example], program: Program) -> List[str]:
    """Examples, each below what it is for."""
    lines: List[str] = []
    for one in of:
        lines += [".PP", escaped(one.meaning[0].upper() + one.meaning[1:]) + ":", ".PP", ".RS 4", ".EX", escaped(one.line.format(program=program.name)), ".EE", ".RE"]
    return lines


def options(of: Iterable[Option]) -> List[str]:
    """Options, and what each does."""
    return [line for option in of for line in tagged(written(option), option.meaning)]


def of_word(program: Program, word: Word) -> List[str]:
    """The section of a word."""
    lines = [f".SS {word.name}", escaped(word.meaning[0].upper() + word.meaning[1:]) + "."]
    for form in word.forms:
        lines += [".PP", f"\\fB{program.name} {escaped(form)}\\fR"]
    for text in word.more:
        lines += [".PP", escaped(text)]
    return lines + options(word.options) + examples(word.examples, program)


def of_program(program: Program) -> str:
    """The page of a program, in roff."""
    with open(f"{running.ROOT}/VERSION", encoding="ascii") as file:
        version = file.read().strip()
    name = program.name
    lines = [f'.TH {name.upper()} 1 "" "kmdfsim {version}" "KMDF simulator"', ".nh", ".ad l", heading("NAME"), f"{name} \\- {escaped(program.meaning)}"]
    lines += [heading("SYNOPSIS"), f"\\fB{name}\\fR WORD [NUMBER..] [FILE..] [OPTION..]", ".br", f"\\fB{name}\\fR WORD \\fB\\-\\-help\\fR"]
    lines += [heading("DESCRIPTION")]
    for text in program.more:
        lines += [".PP", escaped(text)]
    lines += [heading("WORDS")]
    for word in program.words:
        lines += of_word(program, word)
    lines += [heading("OPTIONS"), "Options stand anywhere.", *options(COMMON)]
    lines += [heading('"EXIT STATUS"')]
    for number, meaning in STATUSES.items():
        lines += tagged(str(number), meaning)
    others = [f"\\fB{other}\\fR(1)" for other in PROGRAMS if other != name]
    return "\n".join([*lines, heading('"SEE ALSO"'), ", ".join(others), ""])

"""The guide's page on the commands, made from the table of words."""
from __future__ import annotations

from typing import Iterable, List

from .help_pages import written
from .words import COMMON, PROGRAMS, REPORTS, STATUSES, Option, Program, Word

HEAD = """# Commands

This page is made from the table of words (`tools/command/words.py`), as are `--help`, the man pages and the completion.

```sh
./kmdfsim order driver.kmdf                            # a trace
./kmdfhunt seeds 0 500 driver.kmdf                     # how five hundred runs end
./kmdfhunt explain 10 driver.kmdf                      # why seed 10 ends as it does
./kmdfview html seed 10 driver.kmdf > seed-10.html     # that run in a browser, with the script and the story
```

- `--help` behind a program or a word shows its page, `--version` which version this is and whether it is proved. Options stand
  anywhere; after `--` no word is one.
- A word that reads a scenario takes files in place of standard input: `./kmdfsim order FILE` is `./kmdfsim order < FILE`. Of several
  files each is done under its name, and the status is the first that isn't 0. `./kmdfhunt explain` and `./kmdfview` run the scenario
  themselves; no trace has to be joined by hand.
- On a terminal lines have colours. `NO_COLOR` in the environment or `--color=never` keeps them away, `--color=always` brings them into a
  pipe.
- Where standard output is no terminal, a refusal is told on standard error too.
- `source <(./kmdfsim completion bash)` completes words by the Tab key, `zsh` in place of `bash` in that shell.

With words of a program alone, and the input on standard input, all is handed on to the program as it is: what it then reads and writes
is what is [proved](../proof/CLAIMS.md). Files, options and reports are done by a script around it, of which nothing is proved; each trace
and each table in them is still the program's.
"""

HUNTS = """## Hunts that can be stopped

`./kmdfhunt seeds` of a file runs the range in pieces, and adds their tables by `sum`: the table is that of the whole range. Ctrl-C,
SIGTERM and `--time S` end it, and the table so far is written, with the range that it is of in its last line. After Ctrl-C the status is
130, after SIGTERM 143, after `--time` that of the table. Without COUNT and with `--time` it goes on as long as there is time.

| report | what it has |
|---|---|
{reports}

A report names for each kind of ending a seed, and the command that explains it. SARIF has a place where the kind names a line of the
scenario: a code host shows it there.
"""


def code(text: str) -> str:
    """A text as code in a table."""
    return "`" + text.replace("|", "\\|") + "`"


def row(*cells: str) -> str:
    """A row of a table."""
    return f"| {' | '.join(cells)} |"


def word_row(word: Word) -> str:
    """The row of a word."""
    options = f"; options {', '.join(code(written(option)) for option in word.options)}" if word.options else ""
    return row(", ".join(code(form) for form in word.forms), word.meaning + options)


def of_program(program: Program) -> List[str]:
    """The section of a program."""
    lines = [f"## {program.name}", "", f"It {program.meaning}.", "", "| words | what is done |", "|---|---|"]
    return [*lines, *(word_row(word) for word in program.words), ""]


def option_rows(options: Iterable[Option]) -> List[str]:
    """A row for each option."""
    return [row(code(written(option)), option.meaning) for option in options]


def text() -> str:
    """The page."""
    lines = [HEAD]
    for program in PROGRAMS.values():
        lines += of_program(program)
    lines += ["## Options of all words", "", "| option | what it does |", "|---|---|", *option_rows(COMMON), ""]
    lines += [HUNTS.format(reports="\n".join(option_rows(REPORTS)))]
    lines += ["## Statuses", "", "| status | what it says |", "|---|---|"]
    lines += [row(str(number), meaning) for number, meaning in STATUSES.items()]
    return "\n".join([*lines, ""])

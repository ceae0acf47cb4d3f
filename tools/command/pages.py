#!/usr/bin/env python3
"""Makes what is written from the table of words, and isn't committed but for the guide.

    python3 tools/command/pages.py man FOLDER           kmdfsim.1, kmdfhunt.1 and kmdfview.1
    python3 tools/command/pages.py completion FOLDER    kmdfsim for bash, _kmdfsim for zsh
    python3 tools/command/pages.py guide [--check]      docs/guide/COMMANDS.md; with --check it compares
"""
import os
import sys
from typing import List

sys.dont_write_bytecode = True
sys.path[0] = os.path.dirname(os.path.dirname(os.path.realpath(__file__)))
from command import completion, guide, man  # noqa: E402 (their folder is on the path only now)
from command.running import ROOT  # noqa: E402
from command.words import PROGRAMS  # noqa: E402

GUIDE = os.path.join(ROOT, "docs", "guide", "COMMANDS.md")


def write(path: str, text: str) -> None:
    """Writes a file, and its folder where that isn't there."""
    os.makedirs(os.path.dirname(path), exist_ok=True)
    with open(path, "w", encoding="utf-8") as file:
        file.write(text)


def main(words: List[str]) -> int:
    """Makes what the words name, and answers the status."""
    if words[:1] == ["man"] and len(words) == 2:
        for program in PROGRAMS.values():
            write(os.path.join(words[1], f"{program.name}.1"), man.of_program(program))
    elif words[:1] == ["completion"] and len(words) == 2:
        write(os.path.join(words[1], "kmdfsim"), completion.bash())
        write(os.path.join(words[1], "_kmdfsim"), completion.zsh())
    elif words == ["guide"]:
        write(GUIDE, guide.text())
    elif words == ["guide", "--check"]:
        with open(GUIDE, encoding="utf-8") as file:
            if file.read() != guide.text():
                print("docs/guide/COMMANDS.md isn't what tools/command/pages.py makes", file=sys.stderr)
                return 1
    else:
        print(__doc__, file=sys.stderr)
        return 2
    return 0


if __name__ == "__main__":
    sys.exit(main(sys.argv[1:]))

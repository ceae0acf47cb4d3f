#!/usr/bin/env python3
"""embed.py [--check]: writes the style and the script of the page of `kmdfview html` into the crate that writes it.

picture.css and picture.js beside this file are the sources; crates/wdf_picture/src/style.rt and script.rt have each as one text, without
its blank lines. With --check nothing is written, and it fails where the two differ."""
import os
import sys

here = os.path.dirname(os.path.abspath(__file__))
crate = os.path.join(here, "..", "..", "crates", "wdf_picture", "src")


def literal(lines):
    for line in lines:
        for byte in line:
            if not " " <= byte <= "~":
                sys.exit(f"not a printable ASCII character in: {line}")
        if '"#' in line:
            sys.exit(f"the end of a raw string in: {line}")
    return 'r#"' + "".join(line + "\n" for line in lines) + '"#'


def module(source, name, head):
    with open(os.path.join(here, source), encoding="ascii") as it:
        lines = [line for line in it.read().split("\n") if line.strip()]
    begun = f"pub(crate) const {name}: &str ="
    text = literal(lines)
    # The layout of `rt fmt`: a text whose first line is too long beside the name begins on the next line.
    first = text.split("\n")[0]
    gap = " " if len(f"{begun} {first}") <= 100 else "\n    "
    return f"//! {head} It is written by `tools/view/embed.py` from `{source}` beside that.\n\n/// The text of it.\n{begun}{gap}{text};\n"


def main():
    bad = False
    for source, target, name, head in (
        ("picture.css", "style.rt", "STYLE", "The style of the page."),
        ("picture.js", "script.rt", "SCRIPT", "The script of the page."),
    ):
        text = module(source, name, head)
        path = os.path.join(crate, target)
        if sys.argv[1:] == ["--check"]:
            with open(path, encoding="ascii") as it:
                if it.read() != text:
                    print(f"{target} isn't what embed.py makes of {source}")
                    bad = True
        else:
            with open(path, "w", encoding="ascii") as it:
                it.write(text)
    sys.exit(1 if bad else 0)


main()

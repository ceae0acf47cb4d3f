#!/usr/bin/env python3
"""pictures.py KMDFVIEW [--check]: writes the pictures of the documents into docs/pictures, from worked runs of tools/runs.

With --check nothing is written, and it fails where one is another than the program makes."""
import os
import subprocess
import sys

sys.dont_write_bytecode = True
from svg import svg_of

ROOT = os.path.join(os.path.dirname(os.path.abspath(__file__)), "..", "..")

# The name of a picture, its run, and how wide an event is.
PICTURES = (
    ("first-read", "requests/one_read", 110),
    ("deadlock", "processors/deadlock", 40),
)


def read(path):
    with open(os.path.join(ROOT, path), encoding="ascii") as file:
        return file.read()


def picture(viewer, run, width):
    """The picture of a worked run."""
    path = os.path.join("tools", "runs", run)
    text = read(path + ".scn") + "trace\n" + read(path + ".out")
    return svg_of(subprocess.run([viewer, "html"], input=text, capture_output=True, text=True, check=True).stdout, width)


def main():
    words = [word for word in sys.argv[1:] if word != "--check"]
    if len(words) != 1:
        sys.exit(__doc__)
    viewer, bad = os.path.abspath(words[0]), False
    for name, run, width in PICTURES:
        made, path = picture(viewer, run, width), os.path.join("docs", "pictures", name + ".svg")
        if "--check" in sys.argv:
            if read(path) != made:
                print(f"{path} isn't what the program makes of {run}")
                bad = True
        else:
            os.makedirs(os.path.join(ROOT, "docs", "pictures"), exist_ok=True)
            with open(os.path.join(ROOT, path), "w", encoding="ascii") as file:
                file.write(made)
    sys.exit(1 if bad else 0)


if __name__ == "__main__":
    main()

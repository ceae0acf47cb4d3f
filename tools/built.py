"""The programs, for the scripts of tools/ and for the tests."""

import functools
import os
import shutil
import subprocess
import sys

ROOT = os.path.dirname(os.path.dirname(os.path.abspath(__file__)))
NAMES = ("kmdfsim", "kmdfhunt", "kmdfview")
# What a script tries where no program is named: the launcher at the top.
PROGRAM = os.path.join(ROOT, NAMES[0])


def program_at(path):
    """The path of a program, or an end of the script that says how to build it. Of a launcher at the top it is the program that this runs."""
    path = os.path.abspath(path)
    if os.path.dirname(path) == ROOT and os.path.basename(path) in NAMES:
        return launched(os.path.basename(path))
    if not os.access(path, os.X_OK):
        sys.exit(f"no program at {path}. Build it first: `./{os.path.basename(path)}` at the top does; README.md says how long that takes")
    return path


@functools.lru_cache(maxsize=None)
def launched(name):
    """The path of the program that `./NAME` runs, which is built first where it isn't there: a quick one where none is proved, and with
    KMDFSIM_PROVED=1 in the environment the proved one alone. With KMDFSIM_PROGRAMS there it is that of the same name in this folder."""
    folder = os.environ.get("KMDFSIM_PROGRAMS")
    if folder:
        return program_at(os.path.join(folder, name))
    built = subprocess.run([os.path.join(ROOT, name), "--build"], stdin=subprocess.DEVNULL, stdout=subprocess.PIPE, text=True, check=False)
    if built.returncode != 0:
        sys.exit(f"./{name} isn't built")
    return program_at(built.stdout.strip())


def needs(command, what):
    """Ends the script where a command isn't there."""
    if not shutil.which(command):
        sys.exit(f"`{command}` isn't on the PATH: {what}")

#!/usr/bin/env python3
"""Takes away the derives of comparison, Debug and Hash that nothing uses: each is a proof, of its crate and for all crates above.

    python3 tools/unused_derives.py [--resume] CRATE..

Give the crates at the top: the programs, the tests, and laws over code. The script takes those derives away from every type of the
repository, has the prover's front end read each of these crates with all crates below it (and its tests), gives back what an error asks
for, and reads again. It proves nothing, and stops the prover where it begins to. With --resume it goes on from the files as they are, and
takes nothing away. The types are those of the last commit. What it leaves out of the comments has to be seen to by hand. Then prove all.
"""

import os
import re
import shutil
import subprocess
import sys
import threading
import time
from pathlib import Path

ROOT = Path(__file__).resolve().parent.parent
KIT = Path(os.path.realpath(shutil.which("rt") or sys.exit("rt isn't in the path"))).parent.parent
TRAITS = ("Debug", "PartialEq", "Eq", "PartialOrd", "Ord", "Hash")
# What a trait can't be without.
NEEDS = {"Eq": ["PartialEq"], "Hash": ["PartialEq", "Eq"], "PartialOrd": ["PartialEq"], "Ord": ["PartialEq", "Eq", "PartialOrd"]}
# A derive, what stands between it and its type, and the type's name.
DERIVE = re.compile(r"( *)#\[derive\(([^)]*)\)\]\n((?: *(?:#\[|///)[^\n]*\n)* *(?:pub(?:\([a-z]+\))? )?(?:struct|enum) (\w+))")
ASKS = [
    re.compile(r"the trait bound `(.+?): (?:\w+::)*(\w+)(?:<.*>)?` is not satisfied"),
    re.compile(r"cannot be applied to `(.+?)`: help: implement `(\w+)`"),
    re.compile(r"`(.+?)` doesn't implement `(\w+)`"),
]
# Two results are compared, of which one has no comparison.
RESULT = re.compile(r"`[!=]=` cannot be applied to `(Result<.+?>)`")
# The type of a field at a place has no such trait.
FIELD = re.compile(r"(\S+?):(\d+):\d+: error\[[a-z-]+\]: `(\w+)` cannot be derived")
# Processor seconds after which the front end has found no error.
LIMIT = 14


def named(words):
    return [word.strip() for word in words.split(",") if word.strip()]


class Types:
    """The derives of each type, by file and name: those of the last commit, and those that are left."""

    def __init__(self, resume):
        self.all, self.left = {}, {}
        for path in sorted(ROOT.glob("crates/*/src/**/*.rt")):
            told = subprocess.run(["git", "show", f"HEAD:{path.relative_to(ROOT)}"], cwd=ROOT, capture_output=True, text=True, check=False)
            now = {name: named(words) for _, words, _, name in DERIVE.findall(path.read_text())}
            for _, words, _, name in DERIVE.findall(told.stdout):
                self.all[path, name] = named(words)
                self.left[path, name] = [t for t in named(words) if t not in TRAITS or (resume and t in now.get(name, []))]

    def give(self, name, trait):
        """Gives a trait back to the types with this name that had it; whether there was one without it."""
        given = False
        for key, had in self.all.items():
            if key[1] == name and trait in had and trait not in self.left[key]:
                # `Eq` is no proof of its own, and belongs to `PartialEq`.
                self.left[key] += [t for t in [trait, "Eq", *NEEDS.get(trait, [])] if t in had and t not in self.left[key]]
                given = True
        return given

    def write(self):
        for path in {path for path, _ in self.all}:

            def line(found, path=path):
                pad, _, rest, name = found.groups()
                if (path, name) not in self.all:
                    return found.group(0)
                words = ", ".join(t for t in self.all[path, name] if t in self.left[path, name])
                return (f"{pad}#[derive({words})]\n" if words else "") + rest

            old = path.read_text()
            new = DERIVE.sub(line, old)
            if new != old:
                path.write_text(new)


def crates():
    lines = [line.partition("#")[0].partition(":") for line in (ROOT / "crates.txt").read_text().split("\n")]
    return {head.split()[0]: rest.split() for head, _, rest in lines if head.strip()}


def below(all_crates, name, found):
    for one in all_crates[name]:
        if one in all_crates and one not in found:
            below(all_crates, one, found)
            found.append(one)
    return found


def stop_after(process, seconds):
    """Stops a process that took so many processor seconds."""
    ticks = os.sysconf("SC_CLK_TCK")
    while process.poll() is None:
        try:
            fields = Path(f"/proc/{process.pid}/stat").read_text().rpartition(")")[2].split()
        except OSError:
            return
        if sum(map(int, fields[11:13])) / ticks > seconds:
            process.kill()
        time.sleep(0.5)


def errors(name, test):
    """The errors of the front end in a crate and in those below it, with its tests or without."""
    all_crates = crates()
    libraries = below(all_crates, name, [])
    main = "src/main.rt" if (ROOT / "crates" / name / "src/main.rt").exists() else "src/lib.rt"
    words = [f"{KIT}/bin/rattle", "check", "--crate-name", name, *(["--test"] if test else []), main]
    for one in sorted({"std", "core"} | {one for crate in [name, *libraries] for one in all_crates[crate] if one not in all_crates}):
        words += ["--extern", f"{one}={KIT}/rlibs/{one}.rlib"]
    words += ["-L", f"dependency={KIT}/rlibs"]
    for one in libraries:
        words += ["--lib", f"{one}:{','.join(['core', 'std', *all_crates[one]])}={ROOT}/crates/{one}/src/lib.rt"]
    words += ["--antt-project", f"{KIT}/rattle/logic/antt-project.json", "--logic-built", f"{KIT}/logic_built", "--only", ""]
    process = subprocess.Popen(words, cwd=ROOT / "crates" / name, stdout=subprocess.PIPE, stderr=subprocess.STDOUT, text=True)
    threading.Thread(target=stop_after, args=(process, LIMIT), daemon=True).start()
    told = process.stdout.read()
    process.wait()
    return [line for line in told.split("\n") if "error" in line]


def answered(types, name, line):
    """Gives back what an error asks for; whether that was something."""
    field = FIELD.match(line)
    if field:
        text = (ROOT / "crates" / name / field[1]).read_text().split("\n")[int(field[2]) - 1]
        return any([types.give(word, field[3]) for word in re.findall(r"[A-Z]\w*", text)])
    for form in ASKS:
        found = form.search(line)
        if found:
            return any([types.give(word, found[2]) for word in re.findall(r"\w+", found[1])])
    result = RESULT.search(line)
    return bool(result) and any([types.give(word, "PartialEq") for word in re.findall(r"\w+", result[1])])


def read(types, name, test):
    """Reads a crate until there is no error, or none that asks for a derive; what is left."""
    while True:
        found = errors(name, test)
        answers = [answered(types, name, line) for line in found]
        types.write()
        if not any(answers):
            return found


def main(words):
    names = [word for word in words if word != "--resume"]
    if not names:
        sys.exit(__doc__)
    types, status = Types("--resume" in words), 0
    types.write()
    for name in names:
        tests = any("#[test]" in path.read_text() for path in (ROOT / "crates" / name / "src").rglob("*.rt"))
        for test in [False, True] if tests else [False]:
            left = read(types, name, test)
            print(f"{name}{' with its tests' if test else ''}: {'read' if not left else left[0][:200]}", flush=True)
            status = status or (1 if left else 0)
    gone = sum(len(had) - len(types.left[key]) for key, had in types.all.items())
    print(f"{gone} derives are gone")
    sys.exit(status)


if __name__ == "__main__":
    main(sys.argv[1:])

#!/usr/bin/env python3
"""Lists the imports of `.antt` and `.rt` files that the rest of the file doesn't name, and takes them away with --fix.

    python3 tools/unused_imports.py [--fix] [CRATE..]

It reads text alone: a `use` with its names, and the words of all other lines but comments. A name with places for operands is
used where all its pieces stand. What is imported for others (`pub use`) is left alone, and so are whole modules in `.antt` files, and
traits in `.rt` files, whose methods alone may be named. The exit status is 1 where some import is unused and isn't taken away. After
--fix `rt fmt` sets the lines. The prover knows it better for `.antt` files: it notes how many files of a crate have such imports, once
the crate is proved. The last time both agreed.
"""

import re
import sys
from pathlib import Path

ROOT = Path(__file__).resolve().parent.parent
USE = re.compile(r"use ([\w.]+)\.\{(.*)\}")
CODE_USE = re.compile(r"^( *)((?:ghost )?)use ([\w.:]+?)(?:(\.|::)\{([^{}]*)\})?( as \w+)?;\n", re.MULTILINE)
CODE_COMMENT = re.compile(r"//.*")
TRAIT = re.compile(r"\btrait (\w+)")
# traits of libraries whose methods are called
LIBRARY_TRAITS = {"IsTerminal", "Rng", "SeedableRng"}
WORD = re.compile(r"[^\s(){}\[\],;.@]+")
COMMENT = re.compile(r"--.*")


def is_use(line):
    return line.startswith(("use ", "pub use "))


def names(name, body, words):
    """Whether a text with these words names what is imported so."""
    name = name.split(" as ")[-1].strip()
    if "◌" in name:
        return all(piece in words or piece in body for piece in name.split("◌") if piece)
    if not name.isidentifier():
        return name in body
    return name in words or re.search(rf"(?<!\w){re.escape(name)}(?!\w)", body) is not None


def without_unused(text):
    """The text without its unused imports, and these."""
    lines = text.split("\n")
    body = "\n".join(COMMENT.sub("", line) for line in lines if not is_use(line))
    words = set(WORD.findall(body))
    left, unused = [], []
    for line in lines:
        found = USE.fullmatch(line)
        if not found:
            left.append(line)
            continue
        all_names = [name.strip() for name in found.group(2).split(",")]
        kept = [name for name in all_names if names(name, body, words)]
        unused += [f"{found.group(1)}.{name}" for name in all_names if name not in kept]
        if kept == all_names:
            left.append(line)
        elif kept:
            left.append(f"use {found.group(1)}.{{{', '.join(kept)}}}")
    return "\n".join(left), unused


def stands(name, body):
    """Whether a word stands in code by itself, and not after one dot."""
    return re.search(rf"(?:\.\.|(?<![\w.])){re.escape(name)}(?!\w)", body) is not None


def code_without_unused(text, traits):
    """The same of a file of code."""
    body = CODE_COMMENT.sub("", CODE_USE.sub("", text))
    words = set(WORD.findall(body))
    unused = []

    def is_used(name):
        own = name.split(" as ")[-1].strip()
        if own in traits or own in ("self", "_"):
            return True
        # a method, a field or a name of another module isn't what was imported; the end of a range is
        return stands(own, body) if own.isidentifier() else names(name, body, words)

    def left(found):
        indent, ghost, path, dot, listed, alias = found.groups()
        if listed is None:
            name = re.sub("^ as ", "", alias) if alias else re.split(r"\.|::", path)[-1]
            if is_used(name):
                return found.group(0)
            unused.append(f"{path}{alias or ''}")
            return ""
        all_names = [name.strip() for name in listed.split(",") if name.strip()]
        kept = [name for name in all_names if is_used(name)]
        unused.extend(f"{path}{dot}{name}" for name in all_names if name not in kept)
        if kept == all_names:
            return found.group(0)
        return f"{indent}{ghost}use {path}{dot}{{{', '.join(kept)}}};\n" if kept else ""

    return CODE_USE.sub(left, text), unused


def files_of(crates, parts, ending):
    """The files of these crates with this ending, or of all crates."""
    folders = [ROOT / "crates" / name for name in crates] or sorted((ROOT / "crates").iterdir())
    return [file for folder in folders for part in parts for file in sorted((folder / part).rglob(f"*.{ending}"))]


def traits_of_sources():
    """The names of all traits that the crates declare, and of those of libraries."""
    return LIBRARY_TRAITS.union(*(TRAIT.findall(file.read_text(encoding="utf-8")) for file in files_of([], ["src"], "rt")))


def main():
    words = sys.argv[1:]
    fix = "--fix" in words
    crates = [word for word in words if word != "--fix"]
    traits = traits_of_sources()
    files = [(file, without_unused) for file in files_of(crates, ["specs", "proofs"], "antt")]
    files += [(file, lambda text: code_without_unused(text, traits)) for file in files_of(crates, ["src"], "rt")]
    count = 0
    for file, reader in files:
        text, unused = reader(file.read_text(encoding="utf-8"))
        for name in unused:
            print(f"{file.relative_to(ROOT)}: {name}")
        count += len(unused)
        if fix and unused:
            file.write_text(text, encoding="utf-8")
    if count:
        print(f"unused_imports: {count} {'taken away' if fix else 'to be taken away'}")
    sys.exit(1 if count and not fix else 0)


if __name__ == "__main__":
    main()

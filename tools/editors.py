#!/usr/bin/env python3
"""Writes the syntax files of editors/ from editors/words.txt, or with --check says whether all is as it should be.

    python3 tools/editors.py [--check]

With --check the list has to have exactly the words of the tables in the crates that read texts, each in a row that fits, and
the files have to be what would be written. A word of a table is in a `const` of words that an enum's method or function
indexes by the variant, or stands after `=>` in a `match`.
"""

import json
import os
import re
import sys

ROOT = os.path.dirname(os.path.dirname(os.path.abspath(__file__)))
EDITORS = os.path.join(ROOT, "editors")
# Files with tables of words, and which rows of the list have the words of which enums.
TABLES = ("crates/wdf_tokens/src/keyword.rt", "crates/wdf_scene/src/words.rt", "crates/wdf_base/src/words.rt")
ROWS = (
    (("blocks", "lines", "statements", "attributes", "kinds", "actions"), ("Keyword", "PlainKind", "DeferredKind", "Scope", "ExecutionLevel", "RequestForm", "Access", "Ask")),
    (("kinds",), ("PlainKind", "DeferredKind")),
    (("atoms",), ("ContextWord",)),
    (("operators",), ("Operator",)),
    (("statuses",), ("Status",)),
    (("callbacks",), ("Callback",)),
    (("calls",), ("CallKind",)),
)
# The rows whose words count at the beginning of a line, and of those after it, with what an editor shows them as: in Vim, in
# TextMate grammars.
FIRST = (("blocks", "Structure", "keyword.control.block"), ("lines", "Type", "storage.type"), ("statements", "Statement", "keyword.control"))
AFTER = (
    ("calls", "Function", "support.function"),
    ("callbacks", "Identifier", "entity.name.function"),
    ("statuses", "Constant", "constant.language"),
    ("atoms", "Special", "variable.language"),
    ("attributes", "StorageClass", "storage.modifier"),
    ("kinds", "StorageClass", "storage.modifier"),
    ("actions", "Keyword", "keyword.other"),
)


def read(path):
    with open(os.path.join(ROOT, path), encoding="utf-8") as file:
        return file.read()


def words_of(text):
    """The rows of the list: the words of each, in order."""
    rows = {}
    for line in text.split("\n"):
        if line and not line.startswith("#"):
            name, _, words = line.partition(": ")
            rows.setdefault(name, []).extend(words.split())
    return rows


def tables():
    """The words of each enum that the crates have a table of."""
    found = {}
    for path in TABLES:
        text = read(path)
        for name, word in re.findall(r'\b(\w+)::\w+\s*=>\s*\{?\s*"([^"]+)"', text):
            found.setdefault(name, set()).add(word)
        lists = dict(re.findall(r"const (\w+): \[&str; \d+\] =\s*\[(.*?)\];", text, re.S))
        uses = []
        for name, body in re.findall(r"^pub fn \w+\(x: (\w+)\)(.*?)^\}", text, re.S | re.M):
            uses += [(name, table) for table in re.findall(r"\b(\w+)\[x as usize\]", body)]
        for name, body in re.findall(r"^impl (\w+) \{(.*?)^\}", text, re.S | re.M):
            uses += [(name, table) for table in re.findall(r"\b(\w+)\[self as usize\]", body)]
        for name, table in uses:
            found.setdefault(name, set()).update(re.findall(r'"([^"]+)"', lists.get(table, "")))
    return found


def differences(rows, found):
    """What the list lacks and what it has too much, in lines."""
    said = []
    for names, enums in ROWS:
        listed = {word for name in names for word in rows.get(name, ())}
        due = {word for enum in enums for word in found.get(enum, ())}
        if not all(enum in found for enum in enums):
            said.append(f"no table of {' '.join(enum for enum in enums if enum not in found)} in {' '.join(TABLES)}")
        said += [f"editors/words.txt: {names[0]} lack {word}" for word in sorted(due - listed)]
        said += [f"editors/words.txt: {word} of {' '.join(names)} is no such word" for word in sorted(listed - due)]
    return said


def either(words):
    return "|".join(sorted(words, key=lambda word: (-len(word), word)))


def vim(rows):
    """Vim's syntax file."""
    out = [
        '" Written by tools/editors.py from editors/words.txt. Scenarios of kmdfsim.',
        'if exists("b:current_syntax")',
        "  finish",
        "endif",
        "syn case match",
        "syn match kmdfNumber /\\<\\d\\+\\>/",
        "syn match kmdfOperator /[-+*\\/%&|^()=<]\\|!=/",
    ]
    links = [("Number", "Number"), ("Operator", "Operator"), ("Comment", "Comment")]
    # What is defined last counts; a `syn keyword` would count before all.
    for name, group, _ in AFTER[::-1] + FIRST:
        bar, start = either(rows[name]).replace("|", "\\|"), "^\\s*\\zs" if (name, group, _) in FIRST else "\\<"
        out.append(f"syn match kmdf{name.capitalize()} /{start}\\%({bar}\\)\\>/")
        links.append((name.capitalize(), group))
    out.append("syn match kmdfComment /#.*/")
    out += [f"hi def link kmdf{name} {group}" for name, group in links]
    out += ["setlocal commentstring=#\\ %s", 'let b:current_syntax = "kmdf"']
    return "\n".join(out) + "\n"


def textmate(rows):
    """A TextMate grammar."""
    patterns = [{"name": "comment.line.number-sign.kmdf", "match": "#.*$"}]
    for name, _, scope in FIRST:
        patterns.append({"name": f"{scope}.kmdf", "match": f"^\\s*\\b({either(rows[name])})\\b"})
    for name, _, scope in AFTER:
        patterns.append({"name": f"{scope}.kmdf", "match": f"\\b({either(rows[name])})\\b"})
    patterns.append({"name": "constant.numeric.kmdf", "match": "\\b[0-9]+\\b"})
    patterns.append({"name": "keyword.operator.kmdf", "match": "==|!=|<=|[-+*/%&|^<=]"})
    grammar = {"name": "kmdfsim scenario", "scopeName": "source.kmdf", "fileTypes": ["kmdf", "scn"], "patterns": patterns}
    return json.dumps(grammar, indent=2) + "\n"


def indents(rows):
    """What VS Code is told of comments and of lines that open a block."""
    opens = [word for word in rows["blocks"] if word != "end"] + ["if", "else", "repeat"]
    rules = {"increaseIndentPattern": f"^\\s*({either(opens)})\\b", "decreaseIndentPattern": "^\\s*(else|end)\\b"}
    return json.dumps({"comments": {"lineComment": "#"}, "brackets": [["(", ")"]], "indentationRules": rules}, indent=2) + "\n"


def files(rows):
    """The files that are made, with their content."""
    return {"vim/syntax/kmdf.vim": vim(rows), "vscode/syntaxes/kmdf.tmLanguage.json": textmate(rows), "vscode/language-configuration.json": indents(rows)}


def main():
    rows = words_of(read("editors/words.txt"))
    if sys.argv[1:] not in ([], ["--check"]):
        sys.exit(__doc__.split("\n\n")[1].strip())
    said = differences(rows, tables())
    for name, text in files(rows).items():
        path = os.path.join(EDITORS, name)
        if "--check" not in sys.argv[1:]:
            with open(path, "w", encoding="utf-8") as file:
                file.write(text)
        elif read(os.path.join("editors", name)) != text:
            said.append(f"editors/{name} isn't what tools/editors.py writes: run it")
    sys.exit("\n".join(said) if said else 0)


if __name__ == "__main__":
    main()

"""HTML from the words of comments and the texts of sources."""

import html
import re
from typing import Callable, List, Optional

# What a word after a module, or alone, leads to, or None.
Links = Callable[[str, str], Optional[str]]
WORD = re.compile(r"(?:([A-Za-z_][A-Za-z0-9_'\-]*)\.)?([A-Za-z_][A-Za-z0-9_'\-]*)")
NOTE = re.compile(r"(--.*|//.*)$")


def escaped(text: str) -> str:
    return html.escape(text, quote=True)


def link(target: str, shown: str) -> str:
    """A link to a target with HTML that is shown."""
    return f'<a href="{escaped(target)}">{shown}</a>'


def inline(text: str) -> str:
    """A line of a comment: words in backquotes are code, and those in double stars are strong."""
    parts = re.split(r"`([^`]+)`", re.sub(r"\[(`[^`]+`)\]", r"\1", text))
    shown = [f"<code>{escaped(part)}</code>" if k % 2 else escaped(part) for k, part in enumerate(parts)]
    return re.sub(r"\*\*(.+?)\*\*", r"<strong>\1</strong>", "".join(shown))


def block(lines: List[str]) -> str:
    """A paragraph, a heading, a list or an indented text."""
    first = lines[0]
    if first.startswith("#"):
        rest = [line for line in lines[1:] if line.strip()]
        return f"<h4>{inline(first.lstrip('# '))}</h4>" + (block(rest) if rest else "")
    if all(line.startswith("    ") for line in lines):
        return "<pre>" + escaped("\n".join(line[4:] for line in lines)) + "</pre>"
    if first.startswith("- "):
        items = re.split(r"\n- ", "\n".join(lines)[2:])
        return "<ul>" + "".join(f"<li>{inline(' '.join(item.split()))}</li>" for item in items) + "</ul>"
    at = next((k for k, line in enumerate(lines) if k and line.startswith("- ")), None)
    if at:
        return block(lines[:at]) + block(lines[at:])
    return f"<p>{inline(' '.join(lines))}</p>"


def prose(comment: str) -> str:
    """The words of a comment: paragraphs, lists and headings."""
    found = [part.split("\n") for part in re.split(r"\n\s*\n", comment.strip("\n")) if part.strip()]
    return "".join(block(lines) for lines in found)


def source(text: str, links: Links, own: str) -> str:
    """The text of a definition or of a contract, with a link at each name that leads to another place than its own. What follows
    a dot is a field."""

    def shown(word: "re.Match[str]") -> str:
        module, name = word.group(1) or "", word.group(2)
        is_field = word.start() > 0 and word.string[word.start() - 1] == "."
        target = None if is_field else links(module, name)
        return link(target, escaped(word.group(0))) if target and target != own else escaped(word.group(0))

    out = []
    for line in text.split("\n"):
        note = NOTE.search(line)
        code = line[: note.start()] if note else line
        told, at = [], 0
        for word in WORD.finditer(code):
            told += [escaped(code[at : word.start()]), shown(word)]
            at = word.end()
        told.append(escaped(code[at:]))
        out.append("".join(told) + (f'<span class="note">{escaped(note.group(0))}</span>' if note else ""))
    return "<pre>" + "\n".join(out) + "</pre>"


STYLE = """body{font:16px/1.45 system-ui,sans-serif;max-width:70em;margin:0 auto;padding:0 1em 4em;color:#1c1c1c;background:#fff}
nav{padding:.6em 0;border-bottom:1px solid #ccc;margin-bottom:1em}nav a{margin-right:1.2em}
a{color:#0b57a4;text-decoration:none}a:hover{text-decoration:underline}
pre{font:13px/1.4 ui-monospace,monospace;background:#f5f5f2;padding:.6em .8em;overflow-x:auto;margin:.4em 0}
code{font:0.9em ui-monospace,monospace;background:#f5f5f2;padding:0 .2em}.note{color:#6b6b60}
.card{border:1px solid #ccc;border-radius:6px;margin:1.2em 0;padding:.2em 1em .6em}.card>h3{margin:.6em 0}
.part{margin:.8em 0 .2em;font-weight:600;color:#555}.place{color:#777;font-size:.85em;font-weight:400}
.old{background:#fbe9e7;display:block}.new{background:#e8f3e8;display:block}
table{border-collapse:collapse}td,th{text-align:left;vertical-align:top;padding:.2em .8em .2em 0;border-bottom:1px solid #e5e5e5}
:target{background:#fff6d6}details>summary{cursor:pointer;color:#555}input{font:inherit;width:24em;padding:.2em .4em}
@media (prefers-color-scheme:dark){body{background:#1b1b1b;color:#ddd}pre,code{background:#262626}a{color:#7db7f0}.card{border-color:#444}
.old{background:#47251f}.new{background:#203a22}:target{background:#3a3515}}
"""


def page(title: str, body: str, up: str = "") -> str:
    """A whole page; `up` leads from its folder to that of the book."""
    links = (("index.html", "The book"), ("rules.html", "Rules"), ("claims.html", "Claims"), ("crates.html", "Crates"))
    head = "".join(link(up + target, name) for target, name in links)
    return (
        f'<!DOCTYPE html>\n<html lang="en"><head><meta charset="utf-8"><meta name="viewport" content="width=device-width">'
        f'<title>{escaped(title)}</title><link rel="stylesheet" href="{up}book.css"></head>\n'
        f"<body><nav>{head}</nav>\n<h1>{inline(title)}</h1>\n{body}\n</body></html>\n"
    )

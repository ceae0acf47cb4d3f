"""What the files of crates have: definitions, types and functions, each with its comment and its text."""

import re
from functools import lru_cache
from pathlib import Path
from typing import List, NamedTuple, Optional, Sequence, Tuple

DEFINITION = re.compile(r"^(?:(?:abbrev|unfoldable)(?: pub)?|pub)? ?([A-Za-z_][A-Za-z0-9_']*) :", re.M)
TYPE = re.compile(r"^(?:pub )?(?:record|data) ([A-Za-z_][A-Za-z0-9_']*)", re.M)
MEMBER = re.compile(r"^  (?:(?:(?:abbrev|unfoldable) )?pub )?([A-Za-z_][A-Za-z0-9_']*) :", re.M)
VISIBLE = r"(?:pub(?:\((?:crate|super)\))? )?"
RUST = re.compile(rf"^\s*{VISIBLE}(?:struct|enum|fn|const|trait) ([A-Za-z_][A-Za-z0-9_]*)", re.M)
VARIANT = re.compile(r"^    (?:pub )?([A-Za-z][A-Za-z0-9_]*)\s*[,({:]", re.M)
ITEM = re.compile(rf"^(\s*){VISIBLE}((?:const )?fn|const) ([A-Za-z_][A-Za-z0-9_]*)")
FUNCTION = re.compile(rf"^(\s*)({VISIBLE})(?:const )?fn ([a-z_][a-z0-9_]*)")
CODE_TYPE = re.compile(r"^(pub(?:\((?:crate|super)\))? )?(?:struct|enum|trait|type|const|static) ([A-Za-z_][A-Za-z0-9_]*)")
IMPL = re.compile(r"^impl(?:<[^\n]*?>)? (?:([A-Za-z_]\w*)(?:<[^\n]*>)? for )?(?:&(?:mut )?)?([A-Za-z_]\w*)")
NOTE = re.compile(r"\s*(--(?! ----)|///|#\[)")


class Item(NamedTuple):
    """A definition, a type or a function. Its comment has no marks, its text no body; its line (from 1) is that of its name."""

    name: str
    comment: str
    text: str
    path: Path
    line: int
    is_public: bool
    has_body: bool



@lru_cache(maxsize=None)
def text_of(path: Path) -> str:
    return path.read_text(encoding="utf-8")


@lru_cache(maxsize=None)
def definition_text(path: Path) -> str:
    """The text of a file of definitions. What stands in a `module _` with parameters stands as if it were outside."""
    text = text_of(path)
    front, module, rest = text.partition("\nmodule _ ")
    if not module:
        return text
    inside = rest.partition("\n")[2]
    return front + "\n\n" + re.sub(r"^  ", "", inside, flags=re.M)


def begin(lines: Sequence[str], number: int) -> int:
    """The number from 1 of the first line of the comment above a line (from 0), or of that line."""
    while number > 0 and NOTE.match(lines[number - 1]):
        number -= 1
    return number + 1


def comment_of(lines: Sequence[str]) -> str:
    """The words of some lines of a comment, without marks and attributes."""
    words = [re.sub(r"^\s*(?:--|///|//!) ?", "", line) for line in lines if not line.lstrip().startswith("#[")]
    return "\n".join(words).strip("\n")


def head_of(path: Path) -> str:
    """The comment at the beginning of a file."""
    found = []
    for line in text_of(path).split("\n"):
        if not re.match(r"(--|//!)", line):
            break
        found.append(line)
    return comment_of(found)


@lru_cache(maxsize=None)
def definitions_in(path: Path) -> List[Item]:
    """The definitions and types of a file of definitions, in their order."""
    lines = definition_text(path).split("\n")
    starts = [k for k, line in enumerate(lines) if DEFINITION.match(line) or TYPE.match(line)]
    items = []
    for k, start in enumerate(starts):
        end = begin(lines, starts[k + 1]) - 1 if k + 1 < len(starts) else len(lines)
        while end > start + 1 and (not lines[end - 1].strip() or lines[end - 1].startswith("--")):
            end -= 1
        name = (DEFINITION.match(lines[start]) or TYPE.match(lines[start])).group(1)
        comment = comment_of(lines[begin(lines, start) - 1 : start])
        items.append(Item(name, comment, "\n".join(lines[start:end]), path, start + 1, "pub" in lines[start].split(":")[0], True))
    return items


def end_of_contract(lines: Sequence[str], start: int, indent: str) -> Tuple[int, bool]:
    """The line (from 0) with which a function's signature and contract end, and whether a body follows."""
    said, opened = False, 0
    for number in range(start, len(lines)):
        line = lines[number].rstrip()
        if number > start and line in (indent + "{", indent + "{}"):
            return number - 1, line.endswith("{")
        said = said or re.match(r"\s*(requires|ensures)\b", line) is not None
        opened += line.count("{") - line.count("}")
        if (line.endswith(";") and not opened) or (not said and line.endswith("{}")):
            return number, False
        if not said and line.endswith("{"):
            return number, True
    return len(lines) - 1, False


@lru_cache(maxsize=None)
def functions_in(path: Path) -> List[Item]:
    """The functions of a file of code, with `TYPE::` before a method's name. Their text is signature and contract."""
    lines = text_of(path).split("\n")
    items, owner = [], ""
    for start, line in enumerate(lines):
        if line.startswith("impl"):
            found = IMPL.match(line)
            owner = f"{found.group(2)}::" if found else ""
        elif line.startswith("pub trait "):
            owner = re.split(r"\W", line[10:])[0] + "::"
        found = FUNCTION.match(line)
        if not found:
            continue
        indent, visible, name = found.groups()
        last, has_body = end_of_contract(lines, start, indent)
        text = "\n".join(row[len(indent) :] for row in lines[start : last + 1])
        text = re.sub(r"\s*\{\}?$", "", text) if lines[last].rstrip().endswith(("{", "{}")) else text
        comment = comment_of(lines[begin(lines, start) - 1 : start])
        items.append(Item((owner if indent else "") + name, comment, text, path, start + 1, visible.strip() == "pub", has_body))
    return items


@lru_cache(maxsize=None)
def types_in(path: Path) -> List[Item]:
    """The types and constants of a file of code, each with its fields."""
    lines = text_of(path).split("\n")
    items = []
    for start, line in enumerate(lines):
        found = CODE_TYPE.match(line)
        if not found:
            continue
        end = start
        if not line.rstrip().endswith((";", "{}")):
            end = next((k for k in range(start + 1, len(lines)) if lines[k].startswith(("}", "]", ")"))), start)
        text = "\n".join(lines[start : end + 1])
        comment = comment_of(lines[begin(lines, start) - 1 : start])
        items.append(Item(found.group(2), comment, text, path, start + 1, found.group(1) == "pub ", True))
    return items


def end_of_item(lines: Sequence[str], start: int, indent: str, is_function: bool) -> int:
    """The last line of a function, or of a constant, that begins at a line."""
    for number in range(start, len(lines)):
        if lines[number].startswith((indent + "}", indent + "{}")) if is_function else lines[number].endswith(";"):
            return number
    return start


def item_at(path: Path, number: int) -> Optional[Tuple[str, int]]:
    """The line (from 1) of the function or the constant around a line (from 0) of a file, the innermost one, and its name; or None."""
    lines = text_of(path).split("\n")
    for start in range(number, -1, -1):
        item = ITEM.match(lines[start])
        if item and end_of_item(lines, start, item.group(1), item.group(2) != "const") >= number:
            return item.group(3), start + 1
    return None


def part_at(path: Path, name: str, line: int) -> Item:
    """A field of a record, a field of a struct or a variant, whose line (from 1) is given, as an item."""
    lines = text_of(path).split("\n")
    start = line - 1
    indent = re.match(r" *", lines[start]).group(0)
    end = start
    while end + 1 < len(lines) and re.match(indent + r"(  |[\]})])", lines[end + 1]):
        end += 1
    text = "\n".join(row[len(indent) :] for row in lines[start : end + 1])
    return Item(name, comment_of(lines[begin(lines, start) - 1 : start]), text, path, line, True, True)


def item_named(path: Path, name: str) -> Optional[Item]:
    """What a file defines by a name: a definition before a type, code, a field and a variant; or None."""
    items = definitions_in(path) if path.suffix == ".antt" else [*types_in(path), *functions_in(path)]
    found = next((item for item in items if item.name.split("::")[-1] == name), None)
    if found:
        return found
    text = text_of(path)
    for form in (MEMBER, VARIANT):
        at = next((m for m in form.finditer(text) if m.group(1) == name), None)
        if at:
            return part_at(path, name, text.count("\n", 0, at.start(1)) + 1)
    return None


def row_of(item: Item, row: str) -> Optional[Item]:
    """Of a definition by cases, the signature and the cases that a remark names by its first word: `NAME`, or `NAME and two more`.
    None where no case has that word."""
    lines = item.text.split("\n")
    word = re.compile(rf"\b{re.escape(row.split()[0])}\b")
    at = next((k for k, line in enumerate(lines) if k > 0 and word.search(line) and not line.lstrip().startswith("--")), None)
    if at is None:
        return None
    more = re.search(r" and (\w+) more$", row)
    count = 1 + {"one": 1, "two": 2, "three": 3, "four": 4}.get(more.group(1), 0) if more else 1
    end, indent = at, len(lines[at]) - len(lines[at].lstrip())
    while count and end + 1 < len(lines):
        following = lines[end + 1]
        is_new = len(following) - len(following.lstrip()) <= indent and not following.lstrip().startswith("--")
        count -= is_new
        end += 1 if count else 0
    while end > at and lines[end].lstrip().startswith("--"):
        end -= 1
    shown = [lines[0], *(["  .."] if begin(lines, at) > 2 else []), *lines[begin(lines, at) - 1 : end + 1]]
    return item._replace(text="\n".join(shown))

"""The claims of docs/proof/CLAIMS.md, and what one has to believe of each: the definitions and types that its contract reaches."""

import re
from pathlib import Path
from typing import Dict, Iterable, List, NamedTuple, Optional

from book.names import At, Names
from book.repository import Lost, Repository
from book.rules import Found
from book.sources import Item, functions_in, text_of

# The crates of definitions and plain types, and what none of the functions of the first sort takes.
SPECS, TRUSTED = "spec_", ("wdf_base", "wdf_model", "wdf_laws")
ACTS = re.compile(r"&mut |\balloc: ")
ROW = re.compile(r"^\| (\d+) \| (.*?) \| (.*?) \| (.*?) \|$", re.M)
NAMED = re.compile(r"((?:`\w+`(?:,| and)? )+)of `(\w+)`(?:: `(\w+)`)?")
LISTED = re.compile(r"^\| (`\w+`(?:, `\w+`)*) \|", re.M)


class Claim(NamedTuple):
    """A claim: its words, the functions whose contracts say it, what it doesn't say, and what it reaches, each with what names it."""

    number: str
    words: str
    functions: List[Item]
    unsaid: str
    reached: Dict[At, Optional[At]]


def clause_of(item: Item, name: Optional[str]) -> str:
    """A named clause of a function's contract, or the whole text where it has none of that name."""
    found = name and re.search(rf"^ *ensures {name} \{{.*?(?=^    (?://|ensures|requires)|\Z)", item.text, re.M | re.S)
    return found.group(0) if found else item.text


def claims_in(page: Path, found: Found, names: Names) -> List[Claim]:
    """The claims of a page's table."""
    claims = []
    for number, words, told, unsaid in ROW.findall(text_of(page)):
        functions, first = [], []
        for some, crate, clause in NAMED.findall(told):
            for name in re.findall(r"`(\w+)`", some):
                item = found.function(f"{crate}::{name}")
                if item is None:
                    raise Lost(f"{page.name}: claim {number}: there is no {name} of {crate}")
                functions.append(item)
                first += names.named_by(item.path, clause_of(item, clause))
        claims.append(Claim(number, words, functions, unsaid, names.reached(first)))
    return claims


def promised(claims: List[Claim], names: Names) -> Dict[At, Optional[At]]:
    """All that the whole contract of the first claim's function reaches."""
    item = claims[0].functions[0]
    return names.reached(names.named_by(item.path, item.text))


def listed(page: Path) -> List[str]:
    """The crates that a page's table tells to read, in its order."""
    return [crate for row in LISTED.findall(text_of(page)) for crate in re.findall(r"\w+", row)]


def differences(reached: Iterable[At], page: Path) -> List[str]:
    """What the list of a page and the crates of some definitions don't have in common."""
    needed, told = sorted({at.crate for at in reached}), listed(page)
    return [f"{page.name} doesn't list {crate}, of which the promises need a definition" for crate in needed if crate not in told] + [
        f"{page.name} lists {crate}, of which the promises need no definition" for crate in told if crate not in needed
    ]


def leaks(repository: Repository) -> List[str]:
    """What crates of definitions name beside each other and the kit, and their functions that change something or take memory."""
    trusted = {crate for crate in repository.names if crate.startswith(SPECS) or crate in TRUSTED}
    wrong = [f"{crate} uses {one}: it may use only {', '.join(TRUSTED)} and crates {SPECS}" for crate in trusted for one in repository.uses[crate] if one not in trusted]
    for crate in (crate for crate in repository.names if crate.startswith(SPECS)):
        acting = (item for path in repository.code(crate) for item in functions_in(path) if ACTS.search(item.text))
        wrong += [f"{crate} has {item.name}, which isn't a definition or a plain type" for item in acting]
    return sorted(wrong)


def chain(claims: List[Claim], name: str) -> List[List[At]]:
    """For each definition or type with a name, the shortest chain of names from a claim to it."""
    chains, done = [], set()
    for claim in claims:
        for at in claim.reached:
            if at.name == name and at not in done:
                done.add(at)
                way = [at]
                while claim.reached[way[-1]]:
                    way.append(claim.reached[way[-1]])
                chains.append(way[::-1])
    return chains

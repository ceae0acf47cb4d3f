"""The table that `kmdfhunt seeds` writes, as values."""
from __future__ import annotations

import re
from dataclasses import dataclass
from typing import Optional, Tuple

ROW = re.compile(r"(\d+) seeds, seed (\d+) in (\d+) events: (.*)")
LAST = re.compile(r"seeds (\d+) to (\d+): (\d+) runs, (\d+) events")
PLACE = re.compile(r"(?:fault (?P<fault>\w+)|broken: (?P<rule>\w+)) at line (?P<line>\d+)")
# What a kind begins with, and its status. The least of those that aren't 0 is the worst.
BROKEN, FAULT, STUCK, LIMIT = 1, 3, 4, 5
KINDS = (("finished", 0), ("as expected: ", 0), ("broken: ", BROKEN), ("fault ", FAULT), ("stuck", STUCK), ("limit", LIMIT))


@dataclass(frozen=True)
class Row:
    """A kind of ending: how many seeds led to it, and which has the shortest run."""

    count: int
    seed: int
    events: int
    kind: str

    @property
    def status(self) -> int:
        """The status of a run of this kind, as `kmdfhunt` has it."""
        return next(status for begin, status in KINDS if self.kind.startswith(begin))

    @property
    def name(self) -> str:
        """The kind without its line: the fault's name, `broken-` and the rule, or a word."""
        place = PLACE.match(self.kind)
        if not place:
            return self.kind.partition(":")[0].replace(" ", "-")
        return place.group("fault") or f"broken-{place.group('rule')}"

    @property
    def line(self) -> Optional[int]:
        """The line of the scenario that the kind names, if it names one."""
        place = PLACE.match(self.kind)
        return int(place.group("line")) if place else None

    def __str__(self) -> str:
        return f"seed {self.seed} in {self.events} events: {self.kind}"


@dataclass(frozen=True)
class Table:
    """The kinds in which the runs of a range of seeds ended."""

    rows: Tuple[Row, ...]
    first: int
    last: int
    events: int

    @property
    def count(self) -> int:
        """How many seeds were tried."""
        return self.last - self.first + 1

    @property
    def worst(self) -> Optional[Row]:
        """The first row of the worst kind; None where all is as it should be."""
        bad = [row for row in self.rows if row.status]
        return min(bad, key=lambda row: row.status) if bad else None


def read(text: str) -> Table:
    """The table of a text that `seeds` or `sum` wrote."""
    *lines, last = text.strip().split("\n")
    total = LAST.fullmatch(last)
    found = [ROW.fullmatch(line) for line in lines]
    if not total or not all(found):
        raise ValueError(f"no table: {text[:200]}")
    rows = tuple(Row(int(row[1]), int(row[2]), int(row[3]), row[4]) for row in found if row)
    return Table(rows, int(total[1]), int(total[2]), int(total[4]))

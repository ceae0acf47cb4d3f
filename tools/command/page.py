"""What the launcher puts into a page of `kmdfview html`: the script, the line of each event, and the story of what went wrong.

The page is the program's, byte for byte, with one block of data more before its script, which reads it.
"""
from __future__ import annotations

import json
from typing import List

SCRIPT = b"<script>\n"


def data_of(name: str, scenario: str, lines: List[int], story: str) -> bytes:
    """The block of data, in which no byte ends it or begins markup."""
    text = json.dumps({"name": name, "script": scenario, "lines": lines, "story": story}, separators=(",", ":"))
    for mark in "<>&":
        text = text.replace(mark, f"\\u{ord(mark):04x}")
    return b'<script type="application/json" id="source">' + text.encode("ascii") + b"</script>\n"


def with_data(page: bytes, data: bytes) -> bytes:
    """The page with the data before its script. All text in a page is escaped, so its last `<script>` is the script."""
    at = page.rindex(SCRIPT)
    return page[:at] + data + page[at:]

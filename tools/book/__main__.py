#!/usr/bin/env python3
"""Writes the book of the repository into out/book: a page for each subject of rules, each crate, and the claims.

    python3 tools/book                writes it; open out/book/index.html
    python3 tools/book --check        only says what is wrong: for the gate
    python3 tools/book --why NAME     how the claims come to the definition NAME
"""

import sys
from pathlib import Path

sys.dont_write_bytecode = True
ROOT = Path(__file__).resolve().parent.parent.parent
sys.path.insert(0, str(ROOT / "tools"))

from book.main import main  # noqa: E402

if __name__ == "__main__":
    sys.exit(main(ROOT, sys.argv[1:], __doc__))

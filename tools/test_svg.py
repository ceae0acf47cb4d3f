"""Tests of tools/view/svg.py by a page that is made by hand: shapes and numbers are placed by the width of an event, what is of the
page around the picture goes, and so do the fields that only the page's script reads; a stuck run's part comes below."""

import os
import sys
import unittest

sys.path.insert(0, os.path.join(os.path.dirname(os.path.abspath(__file__)), "view"))
from svg import svg_of

PLOT = (
    '<svg id="plot" width="120" height="40" data-slots="5"><g><g>'
    '<svg class="s cpu" x="20" width="40" data-a="1" data-b="3"><rect/></svg>'
    '<text class="number" y="9" data-a="4" x="80">4</text>'
    "</g></g></svg>\n"
)
STUCK = '<section id="stuck"><h2>Stuck</h2><svg width="500" height="30"><g/></svg></section>'
PAGE = (
    "<html><style>\nbody { margin: 0; }\nrect { fill: red; }\n#names { left: 0; }\n</style>\n"
    '<svg id="names" width="150" height="40"><g></g></svg>\n' + PLOT
)


class Picture(unittest.TestCase):
    maxDiff = None

    def assert_has(self, text, *parts):
        for part in parts:
            self.assertIn(part, text)
        self.assertNotIn("data-", text)

    def test_a_width_of_events(self):
        wide = svg_of(PAGE, 12)
        self.assert_has(wide, 'width="214" height="40" viewBox="0 0 214 40"', "<style>\nrect { fill: red; }\n</style>")
        self.assert_has(wide, '<svg class="s cpu" x="12" width="24"><rect/></svg>', '<text class="number" y="9" x="48">4</text>')
        self.assert_has(wide, '<svg id="plot" x="150" width="62" height="40">')

    def test_as_wide_as_the_page(self):
        self.assert_has(svg_of(PAGE), 'width="254"', '<svg class="s cpu" x="20" width="40"><rect/></svg>')

    def test_a_stuck_run(self):
        self.assert_has(svg_of(PAGE + STUCK, 12), 'width="784" height="84"', '<svg y="50" width="780" height="30"><g/></svg>')


if __name__ == "__main__":
    unittest.main()

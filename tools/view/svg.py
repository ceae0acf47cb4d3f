#!/usr/bin/env python3
"""svg.py PAGE [WIDTH]: writes the picture of a page of `kmdfview html` as one SVG, for a document.

The page is a file. Each event is WIDTH pixels wide, else as in the page. What only the script of the page reads is left out, and
so are the parts of the style that an SVG has no use for. The pictures in docs/pictures are made by `tools/view/pictures.py`."""
import re
import sys

# The lines of the style that are of the page around the picture.
OF_PAGE = re.compile(r"^(\*|body|h1|h2|header|#run|#plot|#both|#side|#story|#script|@media \(max-width|#names \{|#names, #plot|button|#tools|#line|\.legend|\.k|pre|@media print|\.dim|\.here|\.s:hover|\.s \{|#stuck)")


def cut(text, begin, end):
    """What stands between two texts, the first one of each, with them; nothing where it isn't there."""
    if begin not in text:
        return ""
    at = text.index(begin)
    return text[at : text.index(end, at) + len(end)]


def number(text, name):
    return int(re.search(rf' {name}="(\d+)"', text).group(1))


def placed(plot, width):
    """The shapes of a plot, each event so wide."""

    def place(found):
        of = found.group(0)
        a, b = number(of, "data-a"), number(of, "data-b")
        of = re.sub(r' x="\d+"', f' x="{a * width}"', of)
        return re.sub(r' width="\d+"', f' width="{(b - a) * width}"', of)

    plot = re.sub(r'<svg class="s [^>]*>', place, plot)
    return re.sub(r'(<text class="number"[^>]*data-a=")(\d+)(" x=")\d+', lambda found: f"{found[1]}{found[2]}{found[3]}{int(found[2]) * width}", plot)


def svg_of(page, width=None):
    """The SVG of a page."""
    style = "\n".join(line for line in cut(page, "<style>", "</style>").split("\n")[1:-1] if not OF_PAGE.match(line))
    names = cut(page, '<svg id="names"', "</g></svg>\n")
    plot = cut(page, '<svg id="plot"', "</g></g></svg>\n")
    stuck = cut(cut(page, '<section id="stuck">', "</section>"), "<svg", "</svg></section>").replace("</section>", "")
    slots = number(plot[:200], "data-slots")
    wide = slots * width if width else number(plot[:200], "width") - 20
    if width:
        plot = placed(plot, width)
    height, low = number(names, "height"), number(stuck, "height") if stuck else 0
    whole_wide, whole_high = max(150 + wide + 4, 784 if stuck else 0), height + (low + 14 if stuck else 0)
    plot = re.sub(r'<svg id="plot" width="\d+"', f'<svg id="plot" x="150" width="{wide + 2}"', plot, count=1)
    stuck = re.sub(r'<svg width="\d+"', f'<svg y="{height + 10}" width="780"', stuck, count=1)
    text = f'<svg xmlns="http://www.w3.org/2000/svg" width="{whole_wide}" height="{whole_high}" viewBox="0 0 {whole_wide} {whole_high}">\n<style>\n{style}\n</style>\n'
    text += f'<rect width="100%" height="100%" style="fill: var(--ground)"/>\n{names}{plot}{stuck}</svg>\n'
    text = re.sub(r' data-[a-z]+="[^"]*"', "", text)
    return text


def main():
    if len(sys.argv) not in (2, 3):
        sys.exit(__doc__)
    with open(sys.argv[1], encoding="ascii") as file:
        print(svg_of(file.read(), int(sys.argv[2]) if len(sys.argv) == 3 else None), end="")


if __name__ == "__main__":
    main()

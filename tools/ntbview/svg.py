"""Elements of a picture. All numbers are whole, so that the same picture has the same bytes everywhere."""

import functools, html
from pathlib import Path
from textwrap import wrap
from typing import Iterable

from .common import cut, plain, shortened

FILES = Path(__file__).parent / "page"
UNNAMED = "A script with its answers"
PEER = {"A": "B", "B": "A"}
Entry = tuple[str, str, str]
# A text that no element can end.
escape = functools.partial(html.escape, quote=False)


def width(letters: int) -> int:
    """The width of so many letters of one width."""
    return letters * 73 // 10 + 1


def shown(text: str, most: int, longest: int) -> str:
    """A text with its payloads cut, of at most so many letters."""
    return shortened(plain(cut(text, longest, 4)), most)


def style(*names: str) -> str:
    """The style that these files have."""
    return "\n".join((FILES / f"{name}.css").read_text("latin-1").rstrip("\n") for name in names)


def arrowhead(name: str, size: int, tall: int, colour: str) -> str:
    """The head of arrows, by the name with which they ask for it."""
    marker = f'<marker id="{name}" markerUnits="userSpaceOnUse" markerWidth="{size + 2}" markerHeight="{tall}"'
    path = f'<path d="M0,0 L{size},{size // 2} L0,{size} z" fill="{colour}"/>'
    return f'{marker} refX="{size}" refY="{size // 2}" orient="auto">{path}</marker>'


class Picture:
    """What is drawn, kept until it is known how high the picture is."""

    def __init__(self) -> None:
        self.elements, self.note_y = list[str](), 0

    def put(self, x: int, y: int, look: str, text: object) -> None:
        """Writes a text."""
        self.elements.append(f'<text x="{x}" y="{y}" class="{look}">{escape(str(text))}</text>')

    def put_line(self, y: int, number: int, text: str, look: str = "script") -> None:
        """Writes a line of the script behind its number."""
        self.put(32, y, f"right {look}", number)
        self.put(40, y, look, text)

    def put_titles(self, titles: Iterable[str], wide: int, note: str = "") -> int:
        """Writes titles and a note above the picture, in lines that fit, and gives back the y behind them."""
        y, texts = 24, [*((title, "title", 72) for title in titles), *([(note, "note", 68)] if note else [])]
        for text, look, letter in texts:
            most = (wide - 16) * 10 // letter
            for row in wrap(" ".join(text.split()), most, break_long_words=False, break_on_hyphens=False):
                self.put(8, y, look, row)
                y += 19
        return y

    def remark(self, text: str, holds: bool = True, look: str = "note") -> None:
        """Writes a line below the picture, if it holds."""
        if holds:
            self.put(8, self.note_y, look, text)
            self.note_y += 18

    def box(self, x: int, y: int, wide: int, high: int, look: str) -> None:
        """Draws a box."""
        self.elements.append(f'<rect x="{x}" y="{y}" width="{wide}" height="{high}" class="{look}"/>')

    def rule(self, x1: int, y1: int, x2: int, y2: int, look: str, head: str = "", end: str = "") -> None:
        """Draws a line, with a head or with an end."""
        marker = f' marker-end="url(#{head})"' if head else ""
        self.elements.append(f'<line x1="{x1}" y1="{y1}" x2="{x2}" y2="{y2}" class="{look}"{marker}/>')
        self.end(x2, y2, end)

    def end(self, x: int, y: int, how: str) -> None:
        """Draws the end of what is lost, a cross, or of what is still in flight, an open circle."""
        if how == "open":
            self.elements.append(f'<circle cx="{x}" cy="{y}" r="4" class="open"/>')
        elif how == "cross":
            self.rule(x - 4, y - 4, x + 4, y + 4, "cross")
            self.rule(x - 4, y + 4, x + 4, y - 4, "cross")

    def legend(self, x: int, entries: Iterable[Entry], wide: int, box: int = 12, at: int = 30, more: int = 40) -> None:
        """Draws marks with their looks and texts from x on, in as many lines as they need, or in one without `wide`."""
        for mark, look, text in entries:
            if 8 < x and 0 < wide < x + more + len(text) * 7:
                x = 8
                self.note_y += 20
            y = self.note_y
            if mark == "line":
                self.rule(x, y - 4, x + 24, y - 4, look)
            elif mark == "box":
                self.box(x + 12 - box // 2, y - 10, box, 12, look)
            self.end(x + 12, y - 4, mark)
            self.put(x + at, y, "note" if mark else f"note {look}", text)
            x += more + len(text) * 7

    def text(self, wide: int, tall: int, looks: Iterable[str], title: str = "", paper: str = 'class="paper"') -> str:
        """The whole picture."""
        size, titles = f'width="{wide}" height="{tall}"', [f"<title>{escape(title)}</title>"] if title else []
        head = f'<svg xmlns="http://www.w3.org/2000/svg" {size} viewBox="0 0 {wide} {tall}">'
        return "\n".join([head, *titles, *looks, f"<rect {size} {paper}/>", *self.elements, "</svg>", ""])

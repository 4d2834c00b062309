"""A drawing as an SVG text. Nothing of it is proved.

Coordinates are rounded to a tenth of a pixel, so that the same drawing gives the same bytes everywhere.
"""
from contextlib import contextmanager
from typing import Any, Iterable, Iterator, Optional, Sequence, Tuple, Union

FONT = "Helvetica, Arial, 'DejaVu Sans', sans-serif"
# Characters that are narrower or wider than the average. Widths are estimates, since no font is available.
NARROW, WIDE = "ijlt.,:;|!'() frI", "mwMW@%→·"


# (xml.sax.saxutils has the next two functions, but importing it takes as long as the rest of a tool)
def escaped(text: str) -> str:
    """The text escaped for use between two tags."""
    return text.replace("&", "&amp;").replace(">", "&gt;").replace("<", "&lt;")


def quoted(text: str) -> str:
    """The text escaped and quoted as the value of an attribute."""
    return '"' + escaped(text).replace('"', "&quot;") + '"'


def number(value: float) -> str:
    """A coordinate as it is written."""
    text = f"{value:.1f}"
    text = text[:-2] if text.endswith(".0") else text
    return "0" if text == "-0" else text


def text_width(text: str, size: float) -> float:
    """The estimated width of a text in pixels, at this font size."""
    return size * sum(0.34 if c in NARROW else 0.9 if c in WIDE else 0.58 for c in text)


def longest_fit(texts: Iterable[str], room: float, size: float) -> str:
    """The first of the texts that fits into `room` pixels, or the empty text."""
    return next((text for text in texts if text_width(text, size) <= room), "")


class Drawing:
    """A drawing of this width and height. Each shape may have a `note`, which a browser shows under the pointer."""

    def __init__(self, width: float, height: float, about: str) -> None:
        self.width, self.height = width, height
        self.lines = [
            f'<svg xmlns="http://www.w3.org/2000/svg" width="{number(width)}" height="{number(height)}"'
            f' viewBox="0 0 {number(width)} {number(height)}" font-family="{FONT}" role="img">',
            f"<title>{escaped(about)}</title>",
            f'<rect width="{number(width)}" height="{number(height)}" fill="#ffffff"/>',
        ]

    def shape(self, name: str, note: Optional[str] = None, text: Optional[str] = None, **attributes: Any) -> None:
        """Adds the element with this name. Underscores in the names of attributes become hyphens."""
        given = "".join(f" {key.replace('_', '-')}={self.value(value)}" for key, value in attributes.items() if value is not None)
        inner = (f"<title>{escaped(note)}</title>" if note else "") + (escaped(text) if text else "")
        self.lines.append(f"<{name}{given}>{inner}</{name}>" if inner else f"<{name}{given}/>")

    @staticmethod
    def value(value: Union[str, float]) -> str:
        return quoted(number(value) if isinstance(value, (int, float)) else value)

    def rect(self, x: float, y: float, width: float, height: float, **attributes: Any) -> None:
        self.shape("rect", x=x, y=y, width=width, height=height, **attributes)

    def line(self, x1: float, y1: float, x2: float, y2: float, stroke: str, **attributes: Any) -> None:
        self.shape("line", x1=x1, y1=y1, x2=x2, y2=y2, stroke=stroke, **attributes)

    def text(self, x: float, y: float, text: str, size: float = 11, fill: str = "#333333", **attributes: Any) -> None:
        self.shape("text", text=text, x=x, y=y, font_size=size, fill=fill, **attributes)

    def path(self, points: Sequence[Tuple[float, float]], stroke: str, **attributes: Any) -> None:
        """Adds a line through the points."""
        commands = "M" + "L".join(f"{number(x)} {number(y)}" for x, y in points)
        self.shape("path", d=commands, stroke=stroke, fill="none", **attributes)

    @contextmanager
    def group(self, note: Optional[str] = None, **attributes: Union[str, float]) -> Iterator[None]:
        given = "".join(f" {key.replace('_', '-')}={self.value(value)}" for key, value in attributes.items())
        self.lines.append(f"<g{given}>" + (f"<title>{escaped(note)}</title>" if note else ""))
        yield
        self.lines.append("</g>")

    def arrow_head(self, name: str, colour: str) -> None:
        """Defines an arrow head, for lines whose `marker_end` is `url(#name)`."""
        self.lines.append(
            f'<marker id="{name}" viewBox="0 0 8 8" refX="7" refY="4" markerWidth="7" markerHeight="7"'
            f' markerUnits="userSpaceOnUse" orient="auto"><path d="M0 0.8L8 4L0 7.2z" fill="{colour}"/></marker>'
        )

    def window(self, name: str, x: float, y: float, width: float, height: float) -> None:
        """Defines a clipping rectangle. Shapes with `clip_path="url(#name)"` are drawn only inside it."""
        self.lines.append(
            f'<clipPath id="{name}"><rect x="{number(x)}" y="{number(y)}" width="{number(width)}"'
            f' height="{number(height)}"/></clipPath>'
        )

    def written(self) -> str:
        return "\n".join(self.lines + ["</svg>", ""])

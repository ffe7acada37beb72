"""An SVG under way: lines, marks, and labels that are put only at free places."""
from __future__ import annotations

import html
from typing import Optional, Sequence

LETTER = 0.62
SIZE = 12
STYLE = """text{font-family:DejaVu Sans,Verdana,sans-serif;font-size:12px;fill:#333;paint-order:stroke;stroke:#fff;
stroke-width:3px;stroke-linejoin:round}
text.title{font-size:17px;font-weight:bold}text.name{font-weight:bold}
text.value{fill:#0072b2}text.loud{fill:#a03c00;font-weight:bold}
text.foot{font-family:DejaVu Sans Mono,monospace;font-size:13px}
line.work{stroke:#333;stroke-width:2}line.folded{stroke:#bbb;stroke-width:8}rect.fold{fill:#bbb}
line.wait{stroke:#e69f00;stroke-width:2.5;stroke-dasharray:4 3}
line.stuck{stroke:#a03c00;stroke-width:3;stroke-dasharray:7 3}
line.join{stroke:#999;stroke-width:1.2;stroke-dasharray:1 4}
line.fork{stroke:#333;stroke-width:1.6}line.end{stroke:#333;stroke-width:4}
line.message{stroke:#0072b2;stroke-width:1.6}line.race{stroke:#a03c00;stroke-width:3.2}
line.circle{stroke:#a03c00;stroke-width:3.2}line.waits{stroke:#999;stroke-width:1.4}
line.guide{stroke:#a03c00;stroke-width:.7;stroke-dasharray:1 3}
path.pair{stroke:#a03c00;stroke-width:1.6;stroke-dasharray:5 3;fill:none}
.dot{fill:#0072b2}.open{fill:#fff;stroke:#333;stroke-width:1.5}.mark{fill:#fff;stroke:#a03c00;stroke-width:2.2}"""
ARROW = ('<marker id="%s" viewBox="0 0 10 10" refX="9" refY="5" markerWidth="%d" markerHeight="%d" '
         'markerUnits="userSpaceOnUse" orient="auto"><path d="M0,0 L10,5 L0,10 z" fill="%s"/></marker>')

MARKS = (("blue", 8, 8, "#0072b2"), ("brown", 10, 10, "#a03c00"), ("grey", 8, 8, "#999"))
ENDS = {"message": "blue", "waits": "grey"}
Box = tuple[float, float, float, float]


def wide(text: str, size: float = SIZE) -> float:
    """About how wide a text is."""
    return len(text) * size * LETTER


def cut(text: str, room: float, size: float = SIZE) -> str:
    """As much of a text as there is room for."""
    count = max(2, int(room / (size * LETTER)))
    return text if len(text) <= count else text[:count - 1] + "…"


class Svg:
    """What is drawn so far, and the boxes of its labels."""

    def __init__(self) -> None:
        self.lines: list[str] = []
        self.boxes: dict[int, list[Box]] = {}
        self.labels: list[tuple[str, Sequence[tuple[float, float]], str, str]] = []
        self.left_out = 0

    def put(self, tag: str, tip: str = "", text: Optional[str] = None, **words: object) -> None:
        """An element, with what a pointer on it tells."""
        told = ""
        for name, value in words.items():
            told += ' %s="%s"' % (name.rstrip("_").replace("_", "-"), number(value))
        inner = html.escape(text) if text is not None else ""
        inner += "<title>%s</title>" % html.escape(tip) if tip else ""
        self.lines.append("<%s%s>%s</%s>" % (tag, told, inner, tag) if inner else "<%s%s/>" % (tag, told))

    def line(self, start: tuple[float, float], stop: tuple[float, float], kind: str, tip: str = "") -> None:
        """A line."""
        self.put("line", tip, x1=start[0], y1=start[1], x2=stop[0], y2=stop[1], class_=kind)

    def arrow(self, start: tuple[float, float], stop: tuple[float, float], kind: str, tip: str) -> None:
        """An arrow."""
        self.put("line", tip, x1=start[0], y1=start[1], x2=stop[0], y2=stop[1], class_=kind,
                 marker_end="url(#%s)" % ENDS.get(kind, "brown"))
        self.take((min(start[0], stop[0]), start[1] - 1, max(start[0], stop[0]), stop[1] + 1))

    def bar(self, start: tuple[float, float], right: float, kind: str, tip: str) -> None:
        """A line across, which no label crosses."""
        self.line(start, (right, start[1]), kind, tip)
        self.take((start[0], start[1] - 1, right, start[1] + 1))

    def later(self, text: str, places: Sequence[tuple[float, float]], kind: str, tip: str) -> None:
        """A label that is put after all lines."""
        self.labels.append((text, places, kind, tip))

    def label(self, text: str, places: Sequence[tuple[float, float]], kind: str = "", tip: str = "",
              size: float = SIZE) -> bool:
        """A text at the first of these places at which it crosses no other one; nowhere, if there is none."""
        for left, base in places:
            box = (left - 1, base - size, left + wide(text, size) + 1, base + 2)
            if left >= 2 and not self.crosses(box):
                self.take(box)
                self.put("text", tip, text, x=left, y=base, **({"class_": kind} if kind else {}))
                return True
        self.left_out += 1
        return False

    def crosses(self, box: Box) -> bool:
        """Whether a label stands in this box."""
        for band in range(int(box[1]) // 32, int(box[3]) // 32 + 1):
            for other in self.boxes.get(band, ()):
                if box[0] < other[2] and other[0] < box[2] and box[1] < other[3] and other[1] < box[3]:
                    return True
        return False

    def take(self, box: Box) -> None:
        """Nothing else is put into this box."""
        for band in range(int(box[1]) // 32, int(box[3]) // 32 + 1):
            self.boxes.setdefault(band, []).append(box)

    def svg(self, size: tuple[float, float], title: str, told: str) -> str:
        """The whole picture, with a title and a description for readers of screens."""
        for those in self.labels:
            self.label(*those)
        marks = "".join(ARROW % it for it in MARKS)
        return ('<svg xmlns="http://www.w3.org/2000/svg" role="img" aria-labelledby="title text" width="%s" '
                'height="%s" viewBox="0 0 %s %s">\n<title id="title">%s</title>\n<desc id="text">%s</desc>\n'
                '<style>%s</style>\n'
                '<defs>%s</defs>\n<rect width="100%%" height="100%%" fill="#fff"/>\n%s\n</svg>\n' % (
                    (number(size[0]), number(size[1])) * 2 + (html.escape(title), html.escape(told), STYLE, marks,
                                                              "\n".join(self.lines))))


def number(value: object) -> str:
    """A number as short as it can be; a word as it stands in an attribute."""
    if isinstance(value, float):
        return "%g" % round(value, 1)
    return html.escape(str(value))

"""A plot of how many times as fast a run is with more workers."""
from __future__ import annotations

from typing import Sequence

from .svg import Svg

WIDTH, HIGH, LEFT, TOP = 460, 340, 56, 46
STYLE = """text{font-family:DejaVu Sans,Verdana,sans-serif;font-size:11px;fill:#333}
text.title{font-size:14px;font-weight:bold}text.soft{fill:#767676}text.bound{fill:#a03c00}text.measured{fill:#0072b2}
line.axis{stroke:#333;stroke-width:1.2}line.grid{stroke:#ddd;stroke-width:1}
line.ideal{stroke:#767676;stroke-width:1.2;stroke-dasharray:2 4}
line.bound{stroke:#a03c00;stroke-width:1.6;stroke-dasharray:7 4}
line.measured{stroke:#0072b2;stroke-width:2.2}circle{fill:#0072b2}"""


class Plot:
    """The axes: workers to the right, times as fast upwards, both from 0 to the greatest number of workers."""

    def __init__(self, most: int) -> None:
        self.most, self.paper = most, Svg()

    def place(self, workers: float, speed: float) -> tuple[float, float]:
        """Where a point stands."""
        return LEFT + WIDTH * workers / self.most, TOP + HIGH - HIGH * speed / self.most

    def text(self, at: tuple[float, float], words: str, kind: str, anchor: str = "start") -> None:
        """Words beside a point."""
        self.paper.put("text", "", words, x=at[0], y=at[1], class_=kind, text_anchor=anchor)

    def axes(self, ticks: Sequence[int], title: str) -> None:
        """Axes, with a number at each number of workers."""
        self.text((LEFT, 20), title, "title")
        for tick in ticks:
            self.paper.line(self.place(0, tick), self.place(self.most, tick), "grid")
            left, base = self.place(0, tick)
            self.text((left - 8, base + 4), str(tick), "soft", "end")
            left, base = self.place(tick, 0)
            self.text((left, base + 17), str(tick), "soft", "middle")
        self.paper.line(self.place(0, 0), self.place(self.most, 0), "axis")
        self.paper.line(self.place(0, 0), self.place(0, self.most), "axis")
        self.text((LEFT + WIDTH / 2, TOP + HIGH + 36), "workers", "soft", "middle")
        self.text((LEFT, TOP - 8), "times as fast as with one", "soft")

    def measured(self, points: Sequence[tuple[int, float]]) -> None:
        """What was measured, and the line on which twice as many workers would be twice as fast."""
        self.paper.line(self.place(0, 0), self.place(self.most, self.most), "ideal")
        places = [self.place(workers, min(speed, self.most)) for workers, speed in points]
        for one, other in zip(places, places[1:]):
            self.paper.line(one, other, "measured")
        for (workers, speed), (left, base) in zip(points, places):
            self.paper.put("circle", "%d workers: %.2f times as fast" % (workers, speed), cx=left, cy=base, r=4)

    def bound(self, times: float) -> None:
        """What no number of workers can beat."""
        words = "at most %.1f, with any number of workers" % times
        if times > self.most:
            self.text((LEFT + WIDTH, TOP - 8), words, "bound", "end")
            return
        self.paper.line(self.place(0, times), self.place(self.most, times), "bound")
        left, base = self.place(self.most, times)
        self.text((left, base - 5), words, "bound", "end")

    def svg(self) -> str:
        """The whole picture."""
        size = (LEFT + WIDTH + 24, TOP + HIGH + 50)
        head = '<svg xmlns="http://www.w3.org/2000/svg" viewBox="0 0 %d %d" width="%d" height="%d">' % (*size, *size)
        ground = '<rect width="100%" height="100%" fill="#fff"/>'
        return "\n".join([head, "<style>%s</style>" % STYLE, ground, *self.paper.lines, "</svg>"]) + "\n"


def plotted(title: str, points: Sequence[tuple[int, float]], bound: float) -> str:
    """The plot of these points, of workers and times as fast."""
    plot = Plot(max(workers for workers, _ in points))
    plot.axes([workers for workers, _ in points], title)
    plot.bound(bound)
    plot.measured(points)
    return plot.svg()

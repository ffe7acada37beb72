"""Draws a run as a space-time diagram: time goes down, a line is a process. Lines come first, and labels keep clear."""
from __future__ import annotations

from .layout import HEAD, LANE, LEFT, Layout, Point, View
from .svg import SIZE, Svg, cut, wide

LEGEND = (("message", "a message"), ("wait", "waits for a partner"), ("join", "waits for its children"),
          ("stuck", "waits for ever"), ("race", "what went wrong"))


class Drawing(Layout):
    """One picture."""

    def __init__(self, view: View) -> None:
        super().__init__(view)
        self.paper = Svg()
        self.openings: set[tuple[str, int]] = set()

    def channel(self, name: str) -> str:
        """A channel by its variable, if that is known."""
        return self.view.channels.get(name, name)

    def told(self, at: int) -> str:
        """An entry in words."""
        entry = self.entries[at]
        said = "entry %d: %s" % (at, entry)
        if entry.argument in self.view.channels:
            said += " (%s)" % self.view.channels[entry.argument]
        if at in self.timing.meets:
            other = self.timing.meets[at]
            said += ", meets entry %d of %s" % (other, self.entries[other].name)
        if at in self.view.values:
            said += ", %s%s" % ("value " if at in self.timing.meets else "", self.view.values[at])
        return said + (", line %d" % self.view.lines[at] if at in self.view.lines else "")

    def svg(self) -> str:
        """The picture."""
        self.paper.put("text", "", self.view.title, x=LEFT - 20, y=26, class_="title")
        if self.shift:
            self.paper.line((LEFT, HEAD), (LEFT, self.bottom), "folded", "processes that are not shown")
        for lane in self.lanes.lane:
            self.life(lane)
        for fork in self.timing.forks:
            self.bars(fork)
        those = [at for at in self.shown if self.timing.meets.get(at, at) <= at]
        for at in those:
            if at in self.timing.meets:
                self.arrow(at)
        for lane in self.lanes.lane:
            self.name(lane)
        if self.shift:
            self.paper.label("others", [(LEFT - 10, HEAD - 8)], "name")
        for at in those:
            self.mark(at)
        self.pair()
        low = self.legend(self.foot(self.waits(self.bottom)))
        count = self.lanes.count + self.shift
        widest = max([len(self.view.title) * 1.3] + [len(line) * 1.15 for line in self.view.foot] + [100.0]) * 7
        legend = sum(44 + wide(words) for _, words in LEGEND)
        size = (max(LEFT + count * LANE + 20, LEFT + widest, LEFT + legend), low)
        told = "%d of %d entries of %d processes. %s" % (
            len(self.shown), len(self.entries), len(self.timing.born), " ".join(line + "." for line in self.view.foot))
        return self.paper.svg(size, "%s: a run as a space-time diagram" % self.view.title, told)

    # Lanes.
    def name(self, lane: str) -> None:
        """The name of a lane and the call of its process, at its beginning."""
        born = self.timing.born.get(lane)
        x = self.x(lane)
        y = self.y_bar(born[0]) + SIZE + 3 if born and self.is_born(lane) and lane != "0" else HEAD - 34
        title = self.view.titles.get(lane, self.lanes.rests.get(lane, ""))
        parts = lane.split("/")
        short = lane if len(parts) <= 4 else "…/" + "/".join(parts[-3:])
        for number, (text, kind) in enumerate(((short, "name"), (title, ""))):
            if text:
                base = y + (SIZE + 2) * number
                places = [(x + 5, base), (x + 5, base + SIZE + 2)]
                self.paper.label(cut(text, LANE - 10), places, kind, lane + " " + title)

    def life(self, lane: str) -> None:
        """The line of a process, in parts: at work, waiting for a partner, for its children."""
        x, view, timing = self.x(lane), self.view, self.timing
        born = timing.born.get(lane)
        if born is None:
            self.paper.line((x, HEAD), (x, self.bottom), "folded", "%s: %s" % (lane, self.lanes.rests.get(lane, "")))
            return
        if born[1] > view.last or timing.ended.get(lane, (0, view.first))[1] < view.first:
            return
        top = self.y_bar(born[0]) if lane != "0" and self.is_born(lane) else HEAD - 12
        ended = timing.ended.get(lane)
        stop = self.y(ended[0]) if ended and ended[1] <= view.last else self.bottom
        for begin, end, kind in self.pauses_of(lane):
            self.paper.line((x, top), (x, begin), "work", "process " + lane)
            what = "waits for its children" if kind == "join" else "waits"
            self.paper.line((x, begin), (x, end), kind, "process %s %s" % (lane, what))
            top = end
        if top < stop:
            self.paper.line((x, top), (x, stop), "work", "process " + lane)

    def pauses_of(self, lane: str) -> list[tuple[float, float, str]]:
        """When a process does not go on, in order."""
        view, timing, found = self.view, self.timing, []
        for at in self.waits_of.get(lane, ()):
            met = at in timing.meets and max(at, timing.meets[at]) <= view.last
            begin, end = self.y(timing.ready[at]), self.y(timing.row[at], at) if met else self.bottom
            if begin < end:
                found.append((begin, end, "wait" if at in timing.meets else "stuck"))
        for fork in self.forks_of.get(lane, ()):
            row, at, _ = timing.forks[fork]
            joined = timing.joined.get(fork)
            if at <= view.last and (joined is None or joined[1] >= view.first):
                begin = self.y_bar(row) if at >= view.first else HEAD - 6
                end = self.y_bar(joined[0]) if joined and joined[1] <= view.last else self.bottom
                if begin < end:
                    found.append((begin, end, "join"))
        return sorted(found)

    def bars(self, fork: tuple[str, int]) -> None:
        """The lines across of a fork and of its join; how many of its processes are folded into this one."""
        name, number = fork
        if name not in self.lanes.lane:
            return
        row, at, count = self.timing.forks[fork]
        names = ["%s/%d.%d" % (name, number, child) for child in range(min(count, 61))] + ["%s/%d.*" % fork]
        children = [it for it in names if it in self.lanes.lane]
        joined = self.timing.joined.get(fork)
        is_drawn = self.view.first <= at <= self.view.last
        if not children:
            if is_drawn and count:
                (x, y), said = (self.x(name), self.y_bar(row)), "%d processes, not drawn" % count
                self.paper.put("rect", self.told(at), x=x - 5, y=y - 4, width=10, height=8, class_="fold")
                self.paper.later(cut(said, LANE - 12), [(x + 8, y + 4), (x + 8, y + 16)], "", self.told(at))
            return
        right = max(self.x(child) for child in children)
        if is_drawn:
            self.paper.bar((self.x(name), self.y_bar(row)), right, "fork", self.told(at))
        if joined and self.view.first <= joined[1] <= self.view.last:
            y = self.y_bar(joined[0])
            for child in children:
                ended = self.timing.ended.get(child)
                if ended and self.y(ended[0]) < y:
                    self.paper.line((self.x(child), self.y(ended[0])), (self.x(child), y), "join")
            tip = "all children of fork %d of %s have ended" % (number, name)
            self.paper.bar((self.x(name), y), right, "fork", tip)

    # Entries.
    def mark(self, at: int) -> None:
        """What an entry leaves on the paper."""
        entry, (x, y) = self.entries[at], self.point(at)
        if at in self.timing.meets:
            self.message(at)
        elif entry.kind in ("send", "receive"):
            self.stuck(at)
        elif entry.kind == "open":
            self.open(at)
        elif entry.kind == "end":
            self.paper.line((x - 5, y), (x + 5, y), "end", self.told(at))
        elif entry.kind == "fault":
            self.paper.put("path", self.told(at), d="M%g,%g l10,10 m0,-10 l-10,10" % (x - 5, y - 5), class_="mark")
            said = "%s%s" % (entry.argument, ", line %d" % self.view.lines[at] if at in self.view.lines else "")
            self.paper.label(said, [(x + 9, y + 4), (x + 9, y + 18)], "loud", self.told(at))
        elif entry.kind == "pause":
            self.paper.label("Ⅱ", [(x + 4, y + 4)], tip=self.told(at))

    def open(self, at: int) -> None:
        """Channels that a process opens one after the other: one mark, at the first of them."""
        names = [self.timing.opened[at]]
        key = (self.entries[at].name, self.timing.row[at])
        if key in self.openings:
            return
        self.openings.add(key)
        name, row = key
        following = at + 1
        while following <= self.view.last and len(names) < 1000:
            if self.entries[following].name == name:
                if following not in self.timing.opened or self.timing.row[following] != row:
                    break
                names.append(self.timing.opened[following])
            following += 1
        x, y = self.point(at)
        first, last = self.channel(names[0]), self.channel(names[-1])
        tip = "opens " + " ".join("%s (%s)" % (it, self.channel(it)) for it in names[:40])
        self.paper.put("circle", tip, cx=x, cy=y, r=3.5, class_="open")
        said, array = "open " + first, first.rpartition("[")[0] + "["
        if len(names) > 1:
            is_array = all(self.channel(it).startswith(array) for it in names)
            said = "%s..%s" % (said[:-1], last[len(array):]) if is_array else "%s .. %s" % (said, last)
        self.paper.label(cut(said, LANE - 12), [(x + 7, y + 4), (x + 7, y + 16)], tip=tip)

    def ends_of_arrow(self, at: int) -> tuple[int, int, Point, Point]:
        """The entries that send and receive a message, and their points."""
        other = self.timing.meets[at]
        send, receive = (at, other) if self.entries[at].kind == "send" else (other, at)
        return send, receive, self.point(send), self.point(receive)

    def arrow(self, at: int) -> None:
        """The arrow of a message, from who sends to who receives."""
        send, receive, (x1, y), (x2, _) = self.ends_of_arrow(at)
        sign = 1 if x2 > x1 else -1
        loud = bool(self.racing & {send, receive})
        self.paper.arrow((x1, y), (x2 - sign * 4, y), "race" if loud else "message", self.told(send))
        for end, x in ((send, x1), (receive, x2)):
            if end in self.racing:
                self.paper.put("rect", self.told(end), x=x - 4, y=y - 4, width=8, height=8, class_="mark")
            else:
                self.paper.put("circle", self.told(end), cx=x, cy=y, r=3, class_="dot")

    def message(self, at: int) -> None:
        """The labels of a message: its channel and its value, in the space beside the sender."""
        send, receive, (x1, y), (x2, _) = self.ends_of_arrow(at)
        for end, x in ((send, x1), (receive, x2)):
            if end in self.racing:
                places = [(x - 6 - wide(str(end)), y - 5), (x + 6, y + 14)]
                self.paper.label(str(end), places, "loud", self.told(end))
        value = self.view.values.get(send)
        said = self.channel(self.entries[at].argument) + (": " + value if value is not None else "")
        room = min(abs(x1 - x2), LANE) - 16
        if value is not None and wide(said) > room:
            said = value if wide(value) <= room else said
        said = cut(said, room)
        left, right = (x1, x1 + LANE) if x2 > x1 else (x1 - LANE, x1)
        far = (x2 - LANE, x2) if x2 > x1 else (x2, x2 + LANE)
        places = [((begin + end - wide(said)) / 2, y - 4) for begin, end in ((left, right), far)]
        places += [((begin + end - wide(said)) / 2, y + SIZE + 1) for begin, end in ((left, right), far)]
        loud = bool(self.racing & {send, receive})
        self.paper.label(said, places, "loud" if loud else "value", self.told(send))

    def stuck(self, at: int) -> None:
        """An offer that waits at the end."""
        x, y = self.x(self.owner(at)), self.y(self.timing.ready[at])
        self.paper.put("rect", self.told(at), x=x - 4, y=y - 4, width=8, height=8, class_="mark")
        more = [self.view.values.get(at, ""), "line %d" % self.view.lines[at] if at in self.view.lines else ""]
        offer = "%s %s" % (self.entries[at].kind, self.channel(self.entries[at].argument))
        for number, text in enumerate([offer] + [it for it in more if it]):
            base = y + 4 + (SIZE + 2) * number
            self.paper.label(cut(text, LANE - 12), [(x + 8, base), (x + 8, base + 6)], "loud", self.told(at))

    def pair(self) -> None:
        """The curve between the two offers that race, or that clash in a fault."""
        pair = self.view.race or self.view.clash
        if not pair or not all(self.view.first <= at <= self.view.last for at in pair):
            return
        (x1, y1), (x2, y2) = (self.point(at) for at in pair)
        tip = "entries %d and %d %s" % (pair + ("race" if self.view.race else "clash",))
        way = (x1 + 4, y1 + 3, max(x1, x2) + 36, (y1 + y2) / 2, x2 + 4, y2)
        if self.view.clash:
            way = (x1, y1 - 4, (x1 + x2) / 2, min(y1, y2) - 34, x2, y2 - 6)
        self.paper.put("path", tip, class_="pair", d="M%g,%g Q%g,%g %g,%g" % way)

    # Below the lanes.
    def waits(self, low: float) -> float:
        """Who waits for whom; a circle is picked out."""
        names = [(one, other) for one, other in self.view.waits if one in self.lanes.lane and other in self.lanes.lane]
        if not names or self.view.last + 1 < len(self.entries):
            return low
        top, around = low, set(zip(self.view.circle, self.view.circle[1:]))
        for one, other in names:
            low += 14
            x1, x2 = self.x(one), self.x(other)
            for x in (x1, x2):
                self.paper.line((x, top), (x, low), "guide")
            kind = "circle" if (one, other) in around else "waits"
            self.paper.arrow((x1, low), (x2 - (4 if x2 > x1 else -4), low), kind, "%s waits for %s" % (one, other))
        # (below the arrows no line crosses it)
        low += 18
        self.paper.label("who waits for whom%s" % ("; thick: the circle" if around else ""), [(LEFT - 20, low)], "loud")
        return low + 8

    def foot(self, low: float) -> float:
        """The lines below the picture."""
        for line in self.view.foot:
            low += 18
            self.paper.put("text", "", line, x=LEFT - 20, y=low, class_="foot")
        return low + 6

    def legend(self, low: float) -> float:
        """What the lines mean."""
        x, low = LEFT - 20, low + 18
        for kind, words in LEGEND:
            self.paper.line((x, low - 4), (x + 26, low - 4), kind)
            self.paper.put("text", "", words, x=x + 32, y=low)
            x += 44 + wide(words)
        return low + 14

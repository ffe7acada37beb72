"""Pictures of the gallery: some are compared with stored ones, and in all no label crosses another."""
import os
import re
import shutil
import xml.etree.ElementTree as tree

from cases import TOP, copy, gallery, read

STORED = ("race", "sum_tree")
SVG = "{http://www.w3.org/2000/svg}"
LETTER = 0.58


def test(case):
    """A picture of each run."""
    case.each(lambda it: draw(case, *it), gallery())
    same_in_all_forms(case)
    parts(case)
    converted(case)


def draw(case, name, path, data):
    """The picture of a run."""
    if case.run(["check", path])[0] == 0:
        file = copy(path, case.folder)
        status, picture, said = case.tool("picture", ["run", file, "--workers", "1"], data)
        case.check(status == 0 and "Traceback" not in said, "%s: status %d, %s" % (name, status, said))
        case.check(said == "" or name not in STORED, "%s: %s" % (name, said))
        well_formed(case, name, picture)
        if name in STORED:
            case.stored(picture.decode(), "pictures/%s.svg" % name)
        if name == "philosophers":
            page = read(os.path.join(TOP, "docs/philosophers.svg")) if not case.writes else picture
            if case.writes:
                with open(os.path.join(TOP, "docs/philosophers.svg"), "wb") as out:
                    out.write(picture)
            case.check(picture == page, "docs/philosophers.svg is another one")


def well_formed(case, name, picture):
    """It is XML with a title and a description, and its labels do not cross."""
    root = tree.fromstring(picture)
    case.check(root.find(SVG + "title") is not None and root.find(SVG + "desc") is not None, name + ": no title")
    boxes = []
    for text in root.iter(SVG + "text"):
        size = {"title": 17, "foot": 13}.get(text.get("class"), 12)
        left, base = float(text.get("x")), float(text.get("y"))
        boxes.append((left, base - size * .8, left + len(text.text) * size * LETTER, base + 1, text.text))
    crossed = [(one[4], other[4]) for number, one in enumerate(boxes) for other in boxes[:number]
               if one[0] < other[2] and other[0] < one[2] and one[1] < other[3] and other[1] < one[3]]
    case.check(not crossed, "%s: labels cross: %s" % (name, crossed[:3]))
    struck = [(text, line) for line in across(root) for *box, text in boxes
              if box[0] < line[2] and line[0] < box[2] and box[1] < line[1] < box[3]]
    case.check(not struck, "%s: a label is struck through: %s" % (name, struck[:3]))
    bars = [it for it in across(root) if it[3] == "fork"]
    double = [(bar, it) for bar in bars for it in across(root) if it[3] in ("message", "race")
              and bar[1] == it[1] and bar[0] < it[2] and it[0] < bar[2]]
    case.check(not double, "%s: a message on the row of a bar: %s" % (name, double[:3]))


def across(root):
    """The lines across: messages, forks, joins, and who waits for whom."""
    for line in root.iter(SVG + "line"):
        x, y, right, low = (float(line.get(it)) for it in ("x1", "y1", "x2", "y2"))
        if y == low and line.get("class") in ("message", "race", "circle", "waits", "fork"):
            yield min(x, right), y, max(x, right), line.get("class")


def same_in_all_forms(case):
    """Journal, timeline and all reports of one run give the same picture, without and with its text."""
    for options in ([], ["--text", "sum_tree.sp"]):
        found = set()
        for show in ("timeline", "all"):
            notes = case.run(["run", "sum_tree.sp", "--workers", "1", "--show", show])[2]
            found.add(case.tool("picture", options + ["--title", "t"], notes.encode())[1])
        case.check(len(found) == 1 and b"<svg" in found.pop(), "pictures of one run differ")
        notes = case.run(["run", "sum_tree.sp", "--workers", "1", "--show", "journal"])[2]
        case.check(case.tool("picture", options, notes.encode())[0] == 0, "a journal has no picture")


def parts(case):
    """Parts of a run, and folds of many processes."""
    case.file("wide.sp", "program wide; type t = *(integer); var c: t; x: integer; procedure p; begin end;\n"
              "procedure q(c: t; k: integer); begin if k = 70 then send(c, k) else p end;\n"
              "begin open(c); parallel forall k := 1 to 100 do q(c, k) | receive(c, x) end end.")
    _, picture, said = case.tool("picture", ["run", "wide.sp", "--workers", "1"])
    names = re.findall(rb'class="name">([^<]*)', picture)
    case.check(len(names) <= 60 and b"0/0.0/0.*" in names, "folded lanes: %s %s" % (names, said))
    _, picture, _ = case.tool("picture", ["run", "wide.sp", "--workers", "1", "--process", "0/0.0/0.69"])
    names = re.findall(rb'class="name">([^<]*)', picture)
    case.check(sorted(names) == [b"0/0.0/0.69", b"others"] and b"c: 70" in picture, "one process: %s" % names)
    for order in ([], ["--order"]):
        _, picture, _ = case.tool("picture", ["run", "wide.sp", "--workers", "1", "--from", "4", "--to", "30"] + order)
        case.check(b"entries 4 to 30 of" in picture and tree.fromstring(picture) is not None, "a part of a run")


def converted(case):
    """PNG and PDF, if a command is there that makes them; without one a line says what is needed."""
    has_command = shutil.which("rsvg-convert") or shutil.which("inkscape")
    for form, head in (("png", b"\x89PNG"), ("pdf", b"%PDF")):
        path = os.path.join(case.folder, "race." + form)
        status, picture, said = case.tool("picture", ["run", "race.sp", "--workers", "1", "--" + form, path])
        if has_command:
            is_made = (status, picture, said) == (0, b"", "") and read(path).startswith(head)
            case.check(is_made, "--%s: %s" % (form, said))
            status, _, said = case.tool("picture", ["run", "race.sp", "--" + form, "no/folder." + form])
            case.check(status == 22 and said.endswith("cannot write no/folder.%s\n" % form), "--%s: %s" % (form, said))
        else:
            case.check(status == 21 and said.count("\n") == 1, "--%s without a command: %s" % (form, said))

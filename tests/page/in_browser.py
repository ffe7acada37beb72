#!/usr/bin/env python3
"""Opens page/superpascal.html in a browser from its file, and does what a user does.

    tests/page/in_browser.py [--firefox] [--page FILE] [--pictures FOLDER] [--other-program] [--times]

In Firefox, which is tried by hand at a release, all but what needs keys or the browser's own tools. Prints what is
wrong, and how many checks were made. If Chromium does not start, that is said, and nothing is wrong.
"""
import json
import os
import sys
import time

from browser import Chromium, Firefox, Trouble
from opened import CONTROL, DATA, ENTER, ESCAPE, MIRROR, PAGE, RIGHT, TAB, Test, read, slider, slowness
from stepping import test_deadlock_places, test_philosophers, test_places_by_hand, test_race, test_race_places

# What is far too long on a machine that has nothing else to do.
READY_IN = 5000  # milliseconds; seen: 400
STOPPED_IN = 5  # seconds; seen: 0.1
STORED = "(JSON.parse(localStorage.getItem('superpascal')) || {}).text == given[1]"
CHOOSE_STEP = "const it = document.querySelector('#lesson select'); it.selectedIndex = given[0]; it.onchange()"
# The buttons of the tutorial's commands; what the page prints below one of them, which is pressed.
DEEDS = """const deeds = [...document.querySelectorAll('#lesson button')]
    .filter((it) => it.textContent.startsWith('\u25b6'));"""
DO_DEED = """const next = deeds[given[0]].parentNode.nextSibling; deeds[given[0]].click();
    return next && next.tagName == 'PRE' ? next.textContent : ''"""


def whole_notes(test):
    """The notes of a call as the program printed them."""
    head, reports = test.text("notes"), test.text("reports")
    return head + "\n" + reports if head else ""


def run_example(test, name, words):
    """Makes the run of a line of the examples' table in the page: its output and its notes."""
    command, file = words[0], words[1]
    if command == "exec":
        test.code_file(read(file))
    else:
        test.put(read(file), read(name + ".in"))
    if command in ("replay", "trace", "where"):
        test.browser.run("document.getElementById('journal').value = given[0]", read(words[2]))
    test.command(command)
    if command == "witness":
        return test.browser.run("return document.getElementById('journal').value"), None
    return test.text("output"), whole_notes(test)


def test_examples(test):
    """Each line of the examples' table."""
    for line in open(os.path.join(DATA, "table.txt")):
        if line.startswith("#"):
            continue
        name, _, *words = line.split()
        output, notes = run_example(test, name, words)
        test.expect(output, read(name + ".out"), "output of " + name)
        if notes is None:
            continue
        wanted = read(name + ".notes")
        if words[0] != "run" or "timeline\n" in wanted and "census" in wanted or wanted.startswith("refused"):
            test.expect(notes, wanted, "notes of " + name)
        else:
            test.expect_that((notes + "\n").startswith(wanted), "notes of " + name, notes[:200])


def test_commands(test):
    """The commands that no line of the table has, and options."""
    test.put(read("answer.sp"))
    test.command("check")
    test.expect(test.text("notes"), "accepted", "check")
    test.command("build")
    test.expect_that(test.text("output").startswith("superpascal code 1\n"), "build")
    test.command("code")
    test.expect_that(test.text("output").startswith("0 "), "code")
    test.put("program a;begin write(1)end.")
    test.command("format")
    test.expect(test.browser.run("return %s.getValue()" % MIRROR), "program a;\nbegin\n  write(1)\nend.\n", "format")
    test.browser.run("document.getElementById('nodes').value = '5'")
    test.command("gen")
    test.expect_that(test.text("output").startswith("size 5\n"), "gen", test.text("output")[:80])
    test.put("program e; begin while true do end.", options=[["ticks", "1000"]])
    test.command("run")
    test.expect(test.text("notes"), "fault F10 0\nunjudged", "a run of 1,000 ticks")
    test.expect_that("F10, ticks" in test.text("details"), "the fault is told", test.text("details"))
    test.put("program e; begin end.", options=[["workers", "65"]])
    test.command("run")
    test.expect(test.text("verdict"), "The option workers takes a whole number from 1 to 64.", "a wrong option")
    test.put(read("race.sp"))
    test.browser.run("document.getElementById('journal').value = 'superpascal journal 2\\n0 open\\n0 end\\n'")
    test.command("replay")
    test.expect(test.text("notes"), "journal unfit 1", "a journal that does not fit")


def test_live_check(test):
    """A refused place is underlined a moment after the last key, with its rule beside it."""
    test.put("program a;\nvar x: integer;\nbegin\n  y := 1\nend.\n")
    test.wait("document.getElementById('problem').textContent.includes('N1')", "the rule is told")
    found = test.browser.run("return document.querySelector('.problem').textContent")
    test.expect(found, "y", "what is underlined")
    test.expect_that(test.text("problem").startswith("4:3"), "its place", test.text("problem"))
    test.command("run")
    said = "Refused: the rule N1 is broken at line 4, column 3, at \u201cy\u201d."
    test.expect(test.text("verdict"), said, "a run that is refused")
    test.put("program a;\n{ \u00e4\u00f6 } begin y end.\n")
    test.wait("document.getElementById('problem').textContent.startsWith('2:')", "a place behind other letters")
    test.put(read("answer.sp"))
    test.wait("document.getElementById('problem').textContent.includes('keeps all rules')", "no rule is broken")


def test_link_and_storage(test):
    """A link carries text, input and options; the storage keeps them."""
    text = "program mine;\n{ \u00e4 \u20ac }\nbegin\n  write('it''s')\nend.\n"
    test.put(text, "1 2 3\n", [["ticks", "77"]])
    test.browser.run("document.getElementById('link').click()")
    test.wait("location.hash.startsWith('#s=')", "a link")
    address = test.browser.run("return location.hash")
    test.put("program other; begin end.")
    test.wait(STORED, "the storage has another text", "program other; begin end.")
    fields = "['input', 'option-ticks'].map((it) => document.getElementById(it).value)"
    state = "return [%s.getValue(), ...%s]" % (MIRROR, fields)
    test.open(address)
    test.expect(test.browser.run(state), [text, "1 2 3\n", "77"], "what a link carries")
    test.put("program kept; begin end.", "9")
    test.wait(STORED, "the storage has the text", "program kept; begin end.")
    test.open()
    test.expect(test.browser.run(state)[:2], ["program kept; begin end.", "9"], "what the storage keeps")
    test.open("#s=AAAA")
    test.expect(test.browser.run(state)[0], "program kept; begin end.", "a link that carries nothing")


def test_stop(test):
    """A run without end is stopped at once, and the page goes on."""
    test.put("program e; begin while true do end.", options=[["ticks", "1000000000"]])
    test.browser.run("document.querySelector('[data-command=run]').click()")
    test.wait("/ [1-9]\\d* s/.test(document.getElementById('verdict').textContent)", "progress")
    begun = time.time()
    test.browser.run("document.getElementById('stop').click()")
    test.wait("document.getElementById('verdict').textContent == 'Stopped.'", "stopped")
    test.expect_that(time.time() - begun < STOPPED_IN * slowness(), "at once", time.time() - begun)
    test.put(read("answer.sp"))
    test.command("run")
    test.expect(test.text("output"), "42\n", "a run behind it")


def drop(test, name, data):
    """Drops a file onto the page, and waits until the page has said what it made of it."""
    test.browser.run("""const files = new DataTransfer();
        files.items.add(new File([Uint8Array.from(given[1])], given[0]));
        document.getElementById('verdict').textContent = '';
        window.dispatchEvent(new DragEvent('drop', {dataTransfer: files, cancelable: true}));""", name, list(data))
    test.wait("document.getElementById('verdict').textContent", "the page takes " + name)


def test_troubles(test):
    """What a browser cannot do, and files that are none: one clear line, and the page goes on."""
    test.put("program d;\nvar x: integer;\nbegin\n  x := 1" + "+1" * 60000 + ";\n  writeln(x)\nend.\n")
    test.command("run")
    test.expect_that("too deep for the browser's stack" in test.text("verdict"), "a deep text", test.text("verdict"))
    test.browser.run("""%s.replaceRange('x'.repeat(64 << 20), {line: 0, ch: 0})""" % MIRROR)
    test.expect_that(test.text("verdict").startswith("A text may have 1,048,576 bytes"), "64 MB", test.text("verdict"))
    drop(test, "a.sp", [0xff, 0xfe, 0x00])
    test.expect(test.text("verdict"), "a.sp is no text: its bytes are no UTF-8.", "a file that is no text")
    drop(test, "b.sp", b"program dropped; begin write(7) end.\n")
    test.command("run")
    test.expect(test.text("output"), "7", "a file that was dropped")
    drop(test, "c.in", b"5 6\n")
    test.expect(test.browser.run("return document.getElementById('input').value"), "5 6\n", "an input that was dropped")
    test.put("program e;\nvar i: integer;\nbegin\n  for i := 1 to 90000 do write('abcdefgh')\nend.\n")
    test.command("run")
    test.expect(len(test.text("output")), 720000, "a long output")


def test_tutorial(test):
    """Each step has its text, its commands and its task; tasks are seen to be done."""
    test.browser.run("document.getElementById('tutorial').click()")
    steps = test.browser.run("return document.querySelectorAll('#lesson option').length")
    test.expect(steps, 10, "ten steps")
    deeds = 0
    for at in range(steps):
        test.browser.run(CHOOSE_STEP, at)
        test.expect_that(test.is_there("#lesson .task"), "a task")
        for which in range(test.browser.run(DEEDS + "return deeds.length")):
            deeds += 1
            printed = test.browser.run(DEEDS + DO_DEED, which)
            test.wait("document.getElementById('stop').disabled", "a command of the tutorial ends")
            notes = test.text("notes")
            is_printed = not notes or notes.split("\n")[0] in printed or test.text("output") == printed
            test.expect_that(is_printed, "what the tutorial prints", (at, which, notes))
    test.expect_that(deeds >= 20, "commands of the tutorial", deeds)
    test.browser.run(CHOOSE_STEP, 0)
    test.put("program first;\nbegin\n  writeln(43)\nend.\n")
    test.command("run")
    test.expect_that(test.is_there("#lesson .task.is-done"), "a task is done")
    test.picture("tutorial")
    test.browser.run("document.getElementById('tutorial').click()")


def test_looks(test):
    """Dark and light; a phone; names of all fields and buttons."""
    colour = "return getComputedStyle(document.body).backgroundColor"
    light = test.browser.run(colour)
    test.browser.run("document.getElementById('theme').click()")
    test.expect_that(test.browser.run(colour) != light, "dark")
    test.put(read("pipeline_sort.sp"), read("pipeline_sort.in"))
    test.command("run")
    test.picture("dark")
    test.browser.run("document.getElementById('theme').click()")
    test.expect(test.browser.run(colour), light, "light again")
    nameless = """return [...document.querySelectorAll('button, input:not([hidden]), select, textarea')].filter((it) =>
        !it.closest('[hidden]') && !it.closest('.CodeMirror') && !it.textContent.trim()
        && !it.getAttribute('aria-label') && !(it.labels && it.labels.length)).map((it) => it.outerHTML)"""
    test.expect(test.browser.run(nameless), [], "fields and buttons without a name")


def test_phone(test):
    """On a small screen nothing is wider than it."""
    test.browser.tool("Emulation.setDeviceMetricsOverride", width=390, height=800, deviceScaleFactor=2, mobile=True)
    test.open()
    test.put(read("race.sp"))
    test.command("run")
    wide = "return [document.documentElement.scrollWidth, innerWidth]"
    found = test.browser.run(wide)
    test.expect_that(found[0] <= found[1], "nothing is wider than the screen", found)
    seen = "const it = document.getElementById('verdict').getBoundingClientRect();" \
        " return [it.top, it.bottom, innerHeight]"
    top, bottom, high = test.browser.run(seen)
    test.expect_that(0 <= top < bottom <= high, "a run brings its result into view", (top, bottom, high))
    test.picture("phone")
    test.browser.tool("Emulation.clearDeviceMetricsOverride")
    test.browser.tool("Emulation.setEmulatedMedia", features=[{"name": "prefers-color-scheme", "value": "dark"}])
    test.browser.run("localStorage.clear()")
    test.open()
    test.expect(test.browser.run("return document.documentElement.dataset.theme"), "dark", "dark where the system is")
    test.browser.tool("Emulation.setEmulatedMedia", features=[])


def test_keys(test):
    """By the keyboard alone: a run, the way out of the editor, steps in the picture; and saving a file."""
    test.open()
    test.browser.run("%s.setValue(given[0]); %s.focus()" % (MIRROR, MIRROR), read("race.sp"))
    test.browser.keys((CONTROL, ENTER))
    test.wait("document.getElementById('output').textContent == '12\\n'", "Ctrl-Enter runs")
    test.browser.run("%s.setValue('begin'); %s.focus(); %s.setCursor(0, 5)" % (MIRROR, MIRROR, MIRROR))
    test.browser.keys("x", TAB, "y")
    test.expect(test.browser.run("return %s.getValue()" % MIRROR), "beginx  y", "keys and Tab")
    test.browser.keys((CONTROL, "z"))
    test.browser.keys((CONTROL, "z"))
    test.expect_that(test.browser.run("return %s.getValue()" % MIRROR) != "beginx  y", "Ctrl-Z takes back")
    test.browser.run("%s.setValue(given[0]); %s.focus()" % (MIRROR, MIRROR), read("race.sp"))
    test.browser.keys((CONTROL, "f"))
    test.wait("document.querySelector('.CodeMirror-dialog input')", "Ctrl-F opens the search")
    test.browser.keys(*"c, 2", ENTER, ESCAPE)
    test.expect(test.browser.run("return %s.getSelection()" % MIRROR), "c, 2", "what is searched is found")
    test.browser.run("%s.focus()" % MIRROR)
    test.browser.keys(ESCAPE, TAB)
    inside = "return !!document.activeElement.closest('.CodeMirror')"
    test.expect(test.browser.run(inside), False, "Escape and Tab leave the editor")
    test.browser.run("document.querySelector('#view .picture').focus()")
    before = slider(test)[0]
    test.browser.keys(RIGHT)
    test.expect(slider(test)[0], before + 1, "an arrow key steps")
    test.browser.move_to("#view .event circle")
    test.expect_that(test.is_there("#view .tooltip:not([hidden])"), "what the pointer is on is told")
    test.browser.press("#save")
    names, last = [], time.time() + 60
    while time.time() < last and (not names or names[0].endswith(".crdownload")):
        time.sleep(0.1)
        names = [name for name in os.listdir(test.browser.downloads) if not name.startswith(".")]
    test.expect([name[-3:] for name in names], [".sp"], "the text is saved")
    with open(os.path.join(test.browser.downloads, names[0]), encoding="utf-8") as file:
        test.expect(file.read(), read("race.sp"), "what is saved")


def test_print(test):
    """Printing has the text with its lines, and no buttons."""
    test.put(read("answer.sp"))
    test.command("run")
    got = test.browser.tool("Page.printToPDF")
    test.expect_that(len(got["data"]) > 10000, "a printed page", len(got["data"]))
    test.expect_that("1  program answer;" in test.text("printed"), "the text is printed", test.text("printed")[:60])


def test_quiet(test):
    """No error on the console, and no request to a host."""
    said = [it for it in test.browser.log() if it["level"] in ("SEVERE", "WARNING")]
    test.expect(said, [], "what the console says")
    asked = set()
    for it in test.browser.log("performance"):
        message = json.loads(it["message"])["message"]
        if message["method"] == "Network.requestWillBeSent":
            asked.add(message["params"]["request"]["url"].split(":")[0])
    test.expect_that(asked <= {"file", "blob", "data", "about"}, "no request to a host", asked)


def refused_memory(page):
    """A browser that gives a page 100 MB: a run that wants more ends out of memory, and the page goes on."""
    browser = Chromium(more=["--js-flags=--wasm-max-mem-pages=1600"])
    test = Test(browser, page)
    try:
        test.open()
        test.put("program m;\ntype row = array [1..1000000] of integer;\nvar x: integer;\n"
                 "procedure p(k: integer);\nvar a: row;\nbegin\n  a[k] := k;\n  if k < 40 then p(k + 1)\nend;\n"
                 "begin\n  p(1);\n  writeln(1)\nend.\n", options=[["cells", "67108864"]])
        test.command("run")
        test.expect(test.text("notes"), "out of memory", "a run that wants more than the browser gives")
        test.expect_that(test.text("verdict").startswith("Out of memory"), "it is told", test.text("verdict"))
        test.put(read("answer.sp"))
        test.command("run")
        test.expect(test.text("output"), "42\n", "a run behind it")
    finally:
        browser.close()
    return test


OF_PROGRAM = (test_examples, test_deadlock_places, test_race_places, test_places_by_hand)
EVERYWHERE = (*OF_PROGRAM[:-1], test_commands, test_live_check, test_philosophers, test_race, test_stop, test_troubles,
              test_tutorial, test_link_and_storage, test_looks)
IN_CHROMIUM = (test_places_by_hand, test_phone, test_keys, test_print, test_quiet)


def all_parts(test, parts, has_times):
    """Makes these parts of the test; what a browser cannot do is wrong, and the next part begins."""
    test.open(is_first=True)
    ready = int(test.browser.run("return document.body.dataset.ready"))
    test.expect_that(ready <= READY_IN * slowness(), "ready soon", "%d ms" % ready)
    for part in parts:
        begun = time.time()
        try:
            part(test)
        except Trouble as trouble:
            test.expect_that(False, part.__name__, str(trouble)[:300])
        if has_times:
            print("%5.1f s  %s" % (time.time() - begun, part.__name__))
    return ready


def start(is_firefox):
    """The browser, or nothing if it does not start."""
    try:
        return Firefox() if is_firefox else Chromium()
    except (Trouble, OSError) as trouble:
        print("skipped: the page in a browser, as none starts here: " + str(trouble).split("\n", maxsplit=1)[0][:200])
        return None


def main(words):
    named = {name: words[words.index(name) + 1] for name in ("--page", "--pictures") if name in words}
    is_firefox, page = "--firefox" in words, named.get("--page", PAGE)
    parts = EVERYWHERE + (() if is_firefox else IN_CHROMIUM)
    if "--other-program" in words:
        print("skipped: what the examples and their places are in the page, since its program is of other sources")
        parts = tuple(part for part in parts if part not in OF_PROGRAM)
    browser = start(is_firefox)
    if not browser:
        return 0
    test = Test(browser, page, named.get("--pictures", ""))
    try:
        ready = all_parts(test, parts, "--times" in words)
    finally:
        browser.close()
    if not is_firefox:
        other = refused_memory(page)
        test.checks, test.wrong = test.checks + other.checks, test.wrong + other.wrong
    name = "Firefox" if is_firefox else "Chromium"
    print("%s %s: ready in %d ms, %d checks, %d wrong" % (name, browser.version, ready, test.checks, test.wrong))
    return 1 if test.wrong else 0


if __name__ == "__main__":
    sys.exit(main(sys.argv[1:]))

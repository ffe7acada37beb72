"""Tests of the picture of a run, of stepping over its entries, and of the places that it has in the text."""
from opened import ALT, DETAILS, ENTER, MIRROR, read, slider, step

SENTENCE = "return document.querySelector('#view .sentence').textContent"
TABLE = "document.querySelector('#view table').textContent"


def test_philosophers(test):
    """A deadlock opens at its end; stepping back and forward; the offers that wait are marked."""
    test.put(read("philosophers.sp"))
    test.command("run")
    test.expect_that(test.text("verdict").startswith("Deadlock: 3 processes wait"), "deadlock", test.text("verdict"))
    now, most = slider(test)
    test.expect(now, most, "it opens at its end")
    marked = "return document.querySelectorAll('#view .event.marked').length"
    test.expect(test.browser.run(marked), 3, "three offers are marked")
    rows = "return [...document.querySelectorAll('#view tr td.receive')].map((it) => it.textContent)"
    test.expect(len(test.browser.run(rows)), 3, "three processes wait to receive")
    test.picture("philosophers")
    step(test, "one entry back")
    test.expect(slider(test), [most - 1, most], "a step back")
    test.expect(len(test.browser.run(rows)), 2, "two processes wait")
    step(test, "to the start")
    test.expect(test.browser.run(SENTENCE), "The start: the root runs.", "the start")
    for _ in range(4):
        step(test, "one entry on")
    test.expect_that("0 starts 3 processes" in test.browser.run(SENTENCE), "the fork", test.browser.run(SENTENCE))
    test.click("#view .event[data-at='5']")
    test.expect(slider(test)[0], 6, "a click on an event")


def test_race(test):
    """A race opens at its later offer; the witness stands beside the run."""
    test.put(read("race.sp"), options=[["workers", "1"]])
    test.command("run")
    test.expect(slider(test), [5, 10], "it opens behind the later offer")
    test.expect_that("two sends on the channel 0#0" in test.text("verdict"), "the race", test.text("verdict"))
    found = test.browser.run("return [...document.querySelectorAll('#view .marked')].map((it) => it.dataset.at)")
    test.expect(found, ["3", "4"], "the two offers")
    test.command("witness")
    test.expect_that(test.browser.run("return !document.getElementById('other-view').hidden"), "the witness is drawn")
    test.expect(slider(test, "other-view"), [4, 4], "it opens at its end")
    test.expect_that(test.is_there("#other-view .event.fault"), "the clash is drawn")
    test.picture("race")
    test.command("replay")
    test.expect(test.text("notes"), "replayed\nfault F6 0/0.2", "the witness is replayed")
    test.put(read("sieve.sp"))
    test.command("run")
    test.picture("sieve")
    test.expect(slider(test), [400, 433], "a long run opens at the end of the first part that is drawn")
    many = test.browser.run("return document.querySelectorAll('#view [data-fold]').length")
    test.expect_that(many > 0, "processes that can be folded")
    test.click("#view [data-fold]")
    fewer = test.browser.run("return document.querySelectorAll('#view [data-fold]').length")
    test.expect_that(fewer < many, "folding", (many, fewer))
    wide = "return document.querySelector('#view svg').getBoundingClientRect().width"
    before = test.browser.run(wide)
    step(test, "smaller")
    test.expect_that(test.browser.run(wide) < before, "smaller")
    step(test, "an entry right below those that had to come before it, or a row for each")
    test.expect_that(test.is_there("#view svg .event"), "by cause")


def line_click(test, line):
    """A click on the number of a line of the text."""
    test.browser.run("CodeMirror.signal(%s, 'gutterClick', %s, given[0] - 1)" % (MIRROR, MIRROR), line)


def lines_of(test, look):
    """The lines of the text that are marked so."""
    return test.browser.run("""return [...document.querySelectorAll('.place-' + given[0])]
        .map((it) => it.parentNode.textContent.trim())""", look)


def test_deadlock_places(test):
    """Lines, calls and variables at the end of a deadlock, and its circle."""
    test.put(read("philosophers.sp"))
    test.command("run")
    circle = "0/0.0 \u2192 0/0.1 \u2192 0/0.2 \u2192 0/0.0"
    test.wait(DETAILS + ".includes('%s')" % circle, "the circle is told")
    test.expect(test.browser.run("return document.querySelectorAll('#details svg .node').length"), 3, "it is drawn")
    test.wait(TABLE + ".includes('borrowed = undefined')", "variables")
    test.expect_that("from 26" in test.text("view"), "calls", test.text("view")[-300:])
    found = lines_of(test, "current")
    test.expect_that("receive(right, borrowed)" in str(found), "its line", found)
    test.wait("document.querySelectorAll('.place-other').length == 2", "the lines of all processes")
    test.picture("places")
    test.click("#view .event[data-at='3']")
    test.expect_that("forall" in str(lines_of(test, "current")), "the line of an event", lines_of(test, "current"))
    test.expect_that("(line 25)" in test.text("view"), "the line in words")
    line_click(test, 18)
    test.expect(slider(test)[0], 5, "a click on a line steps to its next entry")
    line_click(test, 18)
    test.expect(slider(test)[0], 6, "and to the next one")
    line_click(test, 1)
    test.expect(test.browser.run(SENTENCE), "Line 1 made no entry of this run.", "a line without an entry")
    test.browser.run("""const it = document.querySelector('#view input[type=range]');
        for (const at of [0, 1, 2, 3, 4, 5, 6, 4]) { it.value = at; it.oninput(); }""")
    test.wait(TABLE + ".includes('forks = [0#0, 0#1, 0#2]') && !document.querySelector('#view .is-old')",
              "behind fast steps the last one is told")
    test.click("#view td button.place")
    test.expect(test.browser.run("return %s.getCursor().line" % MIRROR), 24, "a line in the table leads to the text")


def test_race_places(test):
    """The two offers of a race, values at arrows, and what has changed."""
    test.put(read("race.sp"), options=[["workers", "1"]])
    test.command("run")
    test.wait(DETAILS + ".includes('entry 3 0/0.1 sends 1, line 19: send(c, 1)')", "the two offers")
    test.expect_that("#0: 1" in test.text("view"), "the value of a message")
    test.click("#details li button")
    test.expect(slider(test)[0], 4, "a button of an offer steps to it")
    test.click("#view .event[data-at='5']")
    changed = "(document.querySelector('#view mark') || {outerHTML: ''}).outerHTML"
    test.wait(changed + " == '<mark title=\"was undefined\">2</mark>'", "what has changed")
    test.click("#details p button")
    test.wait("!document.getElementById('other-view').hidden", "its witness")
    test.wait("document.querySelector('#other-view table').textContent.includes('send(c, 2)')", "the witness has lines")
    test.command("trace")
    test.expect(test.text("output").split("\n")[:2], ["trace", "0 12:3 0 open"], "trace")
    test.command("where")
    test.expect(test.text("output").split("\n")[:2], ["where", "0 13:3 join"], "where")
    test.put(read("overflow.sp"))
    test.command("run")
    test.wait(DETAILS + ".startsWith('It was met at line 5, column 9: x + 1')", "the place of a fault")
    test.expect_that("write(x + 1)" in str(lines_of(test, "current")), "its line", lines_of(test, "current"))


def test_places_by_hand(test):
    """The pointer on an event tells its statement, calls and variables; a key steps to the entry of a line."""
    test.put(read("race.sp"), options=[["workers", "1"]])
    test.command("run")
    test.wait(DETAILS + ".includes('entry 3')", "places are there")
    test.browser.run("%s.focus(); %s.setCursor(14, 0)" % (MIRROR, MIRROR))
    test.browser.keys((ALT, ENTER))
    test.expect(slider(test)[0], 3, "Alt-Enter steps to the next entry of a line")
    test.browser.move_to("#view .event[data-at='2'] circle")
    told = "document.querySelector('#view .tooltip:not([hidden])').textContent"
    test.wait(told + ".includes('15: receive(c, x)')", "its statement")
    test.wait(told + ".includes('race: x = undefined')", "its variables")
    test.picture("hover")

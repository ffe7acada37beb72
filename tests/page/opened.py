"""The page in a browser that a test leads, and the checks that are made."""
import os
import time

HERE = os.path.dirname(os.path.abspath(__file__))
TOP = os.path.join(HERE, "..", "..")
PAGE = os.path.join(TOP, "page", "superpascal.html")
DATA = os.path.join(TOP, "crates", "gallery", "data")
ESCAPE, TAB, ENTER, CONTROL, ALT, RIGHT = "\ue00c", "\ue004", "\ue007", "\ue009", "\ue00a", "\ue014"
MIRROR = "document.querySelector('.CodeMirror').CodeMirror"
DETAILS = "document.getElementById('details').textContent"


def slowness():
    """How many times longer things may take than on a machine that has nothing else to do."""
    return max(1, 2 * os.getloadavg()[0] / os.cpu_count())


def read(name):
    path = os.path.join(DATA, name)
    return open(path, encoding="utf-8").read() if os.path.exists(path) else ""


class Test:
    """The page in a browser, and the checks that are made."""

    def __init__(self, browser, page, pictures=""):
        self.browser, self.pictures = browser, pictures
        self.address = "file://" + os.path.realpath(page)
        self.checks, self.wrong = 0, 0

    def expect(self, found, wanted, what):
        self.checks += 1
        if found != wanted:
            self.wrong += 1
            print("%s: found %r, wanted %r" % (what, found, wanted))

    def expect_that(self, holds, what, found=""):
        self.checks += 1
        if not holds:
            self.wrong += 1
            print("%s: not so %s" % (what, found))

    def picture(self, name):
        if self.pictures:
            self.browser.shot(os.path.join(self.pictures, name + ".png"))

    def wait(self, condition, what, *values):
        """Waits until a script says so, a minute at most; the values are given[1] and so on in it."""
        script = """for (const begun = Date.now(); Date.now() - begun < given[0];) {
            if (%s) return true;
            await new Promise((go) => setTimeout(go, 20));
        } return false;""" % condition
        self.expect_that(self.browser.run(script, 60000, *values), what)

    def open(self, hash_part="", is_first=False):
        self.browser.go("about:blank")
        self.browser.go(self.address + hash_part)
        self.wait("document.body && document.body.dataset.ready", "the page is ready")
        if is_first:
            self.browser.run("localStorage.clear()")
            self.open(hash_part)

    def text(self, name):
        return self.browser.run("return document.getElementById(given[0]).textContent", name)

    def put(self, text, given="", options=()):
        """Puts a text, an input and options into the page, as if they were typed."""
        self.browser.run("""%s.setValue(given[0]); document.getElementById('input').value = given[1];
            for (const it of document.querySelectorAll('#options input')) it.value = '';
            for (const [name, value] of given[2]) document.getElementById('option-' + name).value = value;""" % MIRROR,
                         text, given, list(options))

    def is_there(self, selector):
        return self.browser.run("return !!document.querySelector(given[0])", selector)

    def click(self, selector):
        """A click on a part of the page, also of a picture."""
        self.browser.run("""document.querySelector(given[0])
            .dispatchEvent(new MouseEvent('click', {bubbles: true}))""", selector)

    def command(self, name):
        """Presses the button of a command and waits for its end."""
        self.browser.run("document.querySelector('[data-command=' + given[0] + ']').click()", name)
        self.wait("document.getElementById('stop').disabled", name + " ends")

    def code_file(self, text):
        """Opens a text as a code file, through the field of files."""
        self.browser.run("""const field = document.getElementById('file'), files = new DataTransfer();
            files.items.add(new File([given[0]], 'text.code')); field.files = files.files;
            document.getElementById('verdict').textContent = '';
            field.dispatchEvent(new Event('change'));""", text)
        self.wait("document.getElementById('verdict').textContent", "the code file is opened")


def slider(test, view="view"):
    return test.browser.run("""const it = document.querySelector('#' + given[0] + ' input[type=range]');
        return [it.valueAsNumber, +it.max]""", view)


def step(test, label, view="view"):
    test.click("#%s [aria-label='%s']" % (view, label))

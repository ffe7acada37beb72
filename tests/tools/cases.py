"""What all tests of the tools need: calls, comparisons, and the texts of the gallery."""
import os
import shutil
import subprocess
import sys
import tempfile
import threading
import time
from concurrent.futures import ThreadPoolExecutor

HERE = os.path.dirname(os.path.realpath(__file__))
TOP = os.path.dirname(os.path.dirname(HERE))
EXAMPLES = os.path.join(TOP, "examples")


class Cases:
    """Counts what passed; `folder` is for files of a test."""

    def __init__(self, program, writes):
        self.program, self.writes, self.passed, self.failed = program, writes, 0, 0
        self.place = tempfile.TemporaryDirectory(prefix="superpascal-tools-")
        self.folder = self.place.name
        self.lock = threading.Lock()

    def check(self, holds, what):
        """One comparison."""
        with self.lock:
            self.passed += bool(holds)
            self.failed += not holds
            if not holds:
                print("FAILED: " + what, flush=True)

    def each(self, work, those):
        """The results of this work on each of those, some at a time."""
        with ThreadPoolExecutor(4) as pool:
            return list(pool.map(work, those))

    def same(self, got, wanted, what):
        """Two texts that should be the same; else the first lines that differ."""
        if got != wanted:
            pairs = zip(got.splitlines() + ["(end)"], wanted.splitlines() + ["(end)"])
            differ = [pair for pair in pairs if pair[0] != pair[1]][:3]
            what += "".join("\n  got:    %s\n  wanted: %s" % pair for pair in differ)
        self.check(got == wanted, what)

    def stored(self, got, name):
        """A text and the one that is stored for it."""
        path = os.path.join(HERE, name)
        if self.writes:
            with open(path, "w", encoding="utf-8") as file:
                file.write(got)
        wanted = ""
        if os.path.exists(path):
            with open(path, encoding="utf-8") as file:
                wanted = file.read()
        self.same(got, wanted, "not as in tests/tools/" + name)

    def file(self, name, text):
        """A file with this text; gives its path."""
        path = os.path.join(self.folder, name)
        with open(path, "wb") as file:
            file.write(text if isinstance(text, bytes) else text.encode("latin1"))
        return path

    def run(self, words, data=b""):
        """Calls the program: status, output, notes."""
        got = subprocess.run([self.program, *words], input=data, capture_output=True, cwd=self.folder, check=False)
        return got.returncode, got.stdout, got.stderr.decode("utf-8", "replace")

    def tool(self, name, words, data=b"", **others):
        """Calls a tool: status, output, notes."""
        places = {**os.environ, "SUPERPASCAL": self.program, **others}
        got = subprocess.run([os.path.join(TOP, "tools", name), *words], input=data, capture_output=True, env=places,
                             cwd=self.folder, check=False)
        return got.returncode, got.stdout, got.stderr.decode("utf-8", "replace")


def gallery():
    """The runs of the gallery's table: the name of the text, its path and its input; each text once."""
    found = {}
    with open(os.path.join(EXAMPLES, "table.txt"), encoding="utf-8") as table:
        for line in table:
            parts = line.split()
            if len(parts) > 3 and parts[2] == "run" and not line.startswith("#"):
                name = parts[3][:-3]
                path = os.path.join(EXAMPLES, parts[0] + ".in")
                if name not in found or os.path.exists(path):
                    found[name] = (os.path.join(EXAMPLES, parts[3]), read(path) if os.path.exists(path) else b"")
    return [(name, *parts) for name, parts in found.items()]


def read(path):
    """The bytes of a file."""
    with open(path, "rb") as file:
        return file.read()


def copy(source, folder):
    """Copies a file of the gallery to a folder; gives its name there."""
    shutil.copy(source, folder)
    return os.path.basename(source)


def made_by_number(path, make, most):
    """What a part does that is called by itself with PROGRAM [COUNT [SEED]]; gives its status."""
    case, begun = Cases(os.path.abspath(sys.argv[1]), False), time.time()
    found = make(case, int(sys.argv[2]) if len(sys.argv) > 2 else most, sys.argv[3] if len(sys.argv) > 3 else 1)
    print("%s: %d passed, %d failed, %.0f s: %s" % (
        os.path.relpath(path, HERE), case.passed, case.failed, time.time() - begun,
        ", ".join("%s %d" % it for it in found.most_common())))
    return 1 if case.failed else 0

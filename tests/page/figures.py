#!/usr/bin/env python3
"""Measures the page in a browser beside the native program, and prints tables.

    tests/page/figures.py PROGRAM [--firefox]

Milliseconds are the least of three runs with one worker; those of the native program are of its process. The longest
chain of operators and the time of a text of 65,536 statements are those of the page alone.
"""
import os
import re
import subprocess
import sys
import tempfile
import time

from browser import Chromium, Firefox
from opened import PAGE, Test

SPEED = os.path.join(os.path.dirname(os.path.abspath(__file__)), "..", "speed")
TIMES = 3
TICKS = [["ticks", "1000000000"], ["workers", "1"]]


def texts():
    """The texts of tests/speed, in sizes of about a second."""
    with open(SPEED, encoding="utf-8") as file:
        held = dict(re.findall(r'^([A-Z]+) = """(.*?)"""', file.read(), flags=re.M | re.S))
    return {"loop": held["LOOP"] % 3000000, "sieve": held["SIEVE"], "fibonacci": held["FIBONACCI"].replace("18", "25"),
            "messages": held["MESSAGES"] % (50000, 50000), "computing": held["COMPUTING"], "tree": held["TREE"]}


def native(program, text):
    """The least milliseconds of the native program, with its start."""
    least = float("inf")
    with tempfile.TemporaryDirectory() as folder:
        path = os.path.join(folder, "a.sp")
        with open(path, "w") as file:
            file.write(text)
        for _ in range(TIMES):
            begun = time.time()
            words = [program, "run", path, "--show", "all", "--ticks", "1000000000", "--workers", "1"]
            subprocess.run(words, stdin=subprocess.DEVNULL, stdout=subprocess.DEVNULL, stderr=subprocess.DEVNULL)
            least = min(least, time.time() - begun)
    return least * 1000


def in_page(test, text):
    """The first and the least milliseconds in the page's program, and the MiB of its memory."""
    found = []
    for _ in range(TIMES):
        test.put(text, options=TICKS)
        test.command("run")
        words = test.text("figures").split()
        found.append((float(words[words.index("ms") - 1]), int(words[words.index("MiB") - 1])))
    return found[0][0], min(ms for ms, _ in found), found[-1][1]


def longest_chain(test):
    """The most operators of one expression that the browser's stack holds, to a twentieth."""
    def holds(many):
        test.put("program d;\nvar x: integer;\nbegin\n  x := 1" + "+1" * many + ";\n  writeln(x)\nend.\n")
        test.command("run")
        return test.text("output") == "%d\n" % (many + 1)
    good, bad = 16, 65536
    while holds(2 * good) and 2 * good < bad:
        good *= 2
    bad = 2 * good
    while bad - good > good // 20 + 1:
        middle = (good + bad) // 2
        good, bad = (middle, bad) if holds(middle) else (good, middle)
    return good


def main(words):
    browser = Firefox() if "--firefox" in words else Chromium()
    test = Test(browser, PAGE)
    try:
        test.open(is_first=True)
        print("%s %s: %s" % (type(browser).__name__, browser.version, test.text("verdict")))
        for name, text in texts().items():
            there = native(words[0], text)
            first, least, memory = in_page(test, text)
            print("%-12s native %8.0f ms, page %8.0f ms (first %.0f), ratio %.1f, %d MiB"
                  % (name, there, least, first, least / there, memory))
        long = "program t;\nvar x: integer;\nbegin\n  x := 1;\n" + "  x := x + 1;\n" * 65535 + "  writeln(x)\nend.\n"
        first, least, memory = in_page(test, long)
        print("%-12s page %8.0f ms, %d MiB" % ("65,536 lines", least, memory))
        print("the longest chain of operators: %d" % longest_chain(test))
    finally:
        browser.close()


if __name__ == "__main__":
    main(sys.argv[1:])

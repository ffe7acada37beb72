"""The texts on which the page is tested: the examples, and those that the language has for each rule and each fault."""
import json
import os
import sys

TOP = os.path.join(os.path.dirname(os.path.abspath(__file__)), "..", "..")
sys.path.insert(0, os.path.join(TOP, "tools"))
from superpascal_tools import rule_pages  # noqa: E402


def texts():
    """Of each text its name, itself and its input."""
    found = []
    for name in rule_pages.rules_and_faults():
        text, behind = rule_pages.example(name)
        if text:
            found.append([name, text, "-" if behind.startswith(" on the input") else ""])
    folder = os.path.join(TOP, "crates", "gallery", "data")
    for file in sorted(os.listdir(folder)):
        if file.endswith(".sp"):
            with open(os.path.join(folder, file), encoding="latin-1") as held:
                text = held.read()
            given = os.path.join(folder, file[:-3] + ".in")
            found.append([file, text, open(given, encoding="latin-1").read() if os.path.exists(given) else ""])
    return found


if __name__ == "__main__":
    json.dump(texts(), sys.stdout)

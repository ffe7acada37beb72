"""What the page is made of: a digest of the program's sources and one of the page's own, which the page has in it."""
from __future__ import annotations

import hashlib
import os

from kept import about_of

PAGE = os.path.dirname(os.path.dirname(os.path.realpath(__file__)))
TOP = os.path.dirname(PAGE)
OWN_FOLDERS = ("page/system", "page/making", "page/site", "examples")
OWN_FILES = ("page/build", "docs/LANGUAGE.md", "docs/COMMANDS.md", "docs/TUTORIAL.md",
             "editors/vscode/superpascal.tmLanguage.json")


def crates_of_the_program() -> list[str]:
    """The crates that sp_main is made of."""
    uses = {}
    with open(os.path.join(TOP, "crates.txt"), encoding="utf-8") as file:
        for line in file:
            head, colon, rest = line.partition(":")
            if colon and not line.startswith("#"):
                uses[head.split()[0]] = rest.split()
    found, left = set(), ["sp_main"]
    while left:
        name = left.pop()
        if name in uses and name not in found:
            found.add(name)
            left += uses[name]
    return sorted(found)


def files_below(folder: str) -> list[str]:
    """The files of a folder, by name, without what tools leave there."""
    found = []
    for place, folders, names in os.walk(os.path.join(TOP, folder)):
        folders[:] = sorted(name for name in folders if name not in ("out", "__pycache__"))
        found += [os.path.join(place, name) for name in names]
    return sorted(found)


def digest(paths: list[str]) -> str:
    """The sha256 of the names and the bytes of these files."""
    made = hashlib.sha256()
    for path in paths:
        with open(path, "rb") as file:
            data = file.read()
        made.update(("%s %d\n" % (os.path.relpath(path, TOP), len(data))).encode() + data)
    return made.hexdigest()


def digest_of(*paths: str) -> str:
    """The sha256 of the bytes of these files together."""
    made = hashlib.sha256()
    for path in paths:
        with open(path, "rb") as file:
            made.update(file.read())
    return made.hexdigest()


def program_digest() -> str:
    """Of the sources and the definitions of the crates of the program."""
    folders = ["crates/%s/%s" % (crate, part) for crate in crates_of_the_program() for part in ("src", "specs")]
    return digest([path for folder in folders for path in files_below(folder)])


def page_digest() -> str:
    """Of all that the page is made of beside the program."""
    paths = [path for folder in OWN_FOLDERS for path in files_below(folder)]
    return digest(paths + [os.path.join(TOP, name) for name in OWN_FILES])


def newer_parts(page: str) -> list[str]:
    """What has changed since the page was made, a line for each part."""
    if not os.path.exists(page):
        return ["page/superpascal.html is not there: page/build makes it"]
    about = about_of(page)
    wrong = []
    if about.get("program") != program_digest():
        wrong.append("the sources of the program are not those of page/superpascal.html: page/build makes it again")
    if about.get("page") != page_digest():
        wrong.append("the sources of the page are not those of page/superpascal.html: page/build --site takes them in")
    if not about.get("proved"):
        wrong.append("the program in page/superpascal.html is not proved")
    return wrong

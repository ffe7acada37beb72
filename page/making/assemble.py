"""Puts all parts of the page into one file: the program, the editor, the scripts, examples, tables and the tutorial."""
from __future__ import annotations

import base64
import gzip
import hashlib
import html
import json
import os
import re

from bundle import bundle
from digests import digest_of
from lessons import lessons

PAGE = os.path.dirname(os.path.dirname(os.path.realpath(__file__)))
TOP = os.path.dirname(PAGE)
SITE = os.path.join(PAGE, "site")
MIRROR = "/usr/share/javascript/codemirror"
ADDONS = ("edit/matchbrackets", "selection/active-line", "comment/comment", "dialog/dialog", "search/searchcursor",
          "search/search", "search/jump-to-line")
# Nothing is asked of any host: all that the page has are its own scripts, and workers and scripts that it makes itself.
POLICY = ("default-src 'none'; script-src 'sha256-%s' blob: 'wasm-unsafe-eval'; worker-src blob:; "
          "style-src 'unsafe-inline'; img-src data:; base-uri 'none'; form-action 'none'")


def read(*names: str) -> str:
    with open(os.path.join(*names), encoding="utf-8") as file:
        return file.read()


def pack(data: bytes) -> str:
    """Bytes as gzip in base64."""
    return base64.b64encode(gzip.compress(data, 9, mtime=0)).decode()


def as_json(value: object) -> str:
    """A value as JSON that may stand in a script of HTML."""
    return json.dumps(value, ensure_ascii=False, separators=(",", ":")).replace("<", "\\u003c")


def rows(page: str) -> list[list[str]]:
    """The rows of all tables of a page of docs/, each as its plain cells."""
    result = []
    for line in read(TOP, "docs", page).splitlines():
        if line.startswith("|"):
            cells = re.split(r"(?<!\\)\|", line)[1:-1]
            plain = [re.sub(r"\[([^\]]*)\]\([^)]*\)", r"\1", cell.strip()) for cell in cells]
            result.append([cell.replace("`", "").replace("\\|", "|") for cell in plain])
    return result


def handbook() -> dict[str, list[str]]:
    """What the language says of each rule and each fault."""
    return {cells[0]: cells[1:4] for cells in rows("LANGUAGE.md") if re.fullmatch(r"[A-Z]\d+", cells[0])}


def options() -> list[dict[str, str]]:
    """The options of the commands, with their ranges."""
    result = []
    for cells in rows("COMMANDS.md"):
        match = re.fullmatch(r"--(\w+) N", cells[0])
        if match and len(cells) == 5:
            says, usual, least, greatest = cells[1], *(cell.replace(",", "") for cell in cells[2:])
            result.append({"name": match[1], "says": says, "usual": usual, "least": least, "greatest": greatest})
    return result


def examples() -> dict[str, list[str]]:
    """The texts of the gallery in its order, each with its input."""
    folder = os.path.join(TOP, "crates", "gallery", "data")
    result = {}
    for name in re.findall(r"^\| \d+ \| `(\w+)\.sp`", read(folder, "README.md"), flags=re.M):
        given = os.path.join(folder, name + ".in")
        result[name] = [read(folder, name + ".sp"), read(given) if os.path.exists(given) else ""]
    return result


def proved_words() -> str:
    """The paragraph of docs/PAGE.md on what is proved of the page, as HTML."""
    text = read(TOP, "docs", "PAGE.md").split("\n## What is proved\n")[1].split("\n## ")[0]
    text = re.sub(r"\[([^\]]*)\]\([^)]*\)", r"\1", html.escape(text.strip(), quote=False))
    text = re.sub(r"`([^`]*)`", r"<code>\1</code>", text)
    return "".join("<p>%s</p>" % it for it in text.split("\n\n") if not it.startswith("|"))


def editor() -> bytes:
    """The editor with its additions, as Debian has them."""
    names = ["lib/codemirror.js", *("addon/%s.js" % name for name in ADDONS)]
    return "\n".join(read(MIRROR, name) for name in names).encode()


def steps_of_tutorial(wasm: str) -> list[dict]:
    """The steps of the tutorial, whose commands are made with the program; kept beside it while nothing has changed."""
    sources = [wasm, os.path.join(TOP, "docs", "TUTORIAL.md"), os.path.join(SITE, "tasks.json")]
    sources += [os.path.join(PAGE, "making", name) for name in ("lessons.py", "call.mjs")]
    digest = digest_of(*sources)
    kept = os.path.join(os.path.dirname(wasm), "steps.json")
    if os.path.exists(kept):
        held = json.loads(read(kept))
        if held["digest"] == digest:
            return held["steps"]
    program = ["node", os.path.join(PAGE, "making", "call.mjs"), wasm]
    steps = lessons(TOP, program, json.loads(read(SITE, "tasks.json")))
    with open(kept, "w", encoding="utf-8") as file:
        json.dump({"digest": digest, "steps": steps}, file)
    return steps


def assemble(wasm: str, page: str, about: dict) -> int:
    """Writes the page; gives its size."""
    with open(wasm, "rb") as file:
        program = file.read()
    data = {"examples": examples(), "handbook": handbook(), "options": options(), "lessons": steps_of_tutorial(wasm),
            "grammar": json.loads(read(TOP, "editors", "vscode", "superpascal.tmLanguage.json"))}
    script = "\n" + bundle(SITE, "start.mjs")
    digest = base64.b64encode(hashlib.sha256(script.encode()).digest()).decode()
    style = read(MIRROR, "lib/codemirror.css") + read(MIRROR, "addon/dialog/dialog.css") + read(SITE, "style.css")
    values = {"POLICY": POLICY % digest, "STYLE": style, "PROVED": proved_words(), "ABOUT": as_json(about),
              "LICENCE": html.escape(read(SITE, "codemirror-licence.txt").strip()), "DATA": pack(as_json(data).encode()),
              "PROGRAM": pack(program), "EDITOR": pack(editor()), "SITE": pack(bundle(SITE, "page.mjs").encode()),
              "WORKER": bundle(SITE, "worker.mjs"), "SCRIPT": script}
    text = re.sub(r"@([A-Z]+)@", lambda match: values[match[1]], read(SITE, "page.html"))
    with open(page, "w", encoding="utf-8") as file:
        file.write(text)
    return len(text.encode())

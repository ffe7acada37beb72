"""The steps of docs/TUTORIAL.md for the page: words, texts for the editor, and commands with what they work on."""
from __future__ import annotations

import html
import os
import re
import shlex
import subprocess
import tempfile

STEP = re.compile(r"^## (\d+\. .*)$", flags=re.M)
PUT = re.compile(r"[Pp]ut this into `([\w.]+)`")
WITH_JOURNAL = ("replay", "trace", "where")
COMMANDS = (*WITH_JOURNAL, "run", "witness", "check", "sets", "format", "code", "build", "exec")


def inline(text: str) -> str:
    """A paragraph as HTML: links become their words, since the pages are not there."""
    text = html.escape(re.sub(r"\[([^\]]*)\]\([^)]*\)", r"\1", " ".join(text.split())), quote=False)
    text = re.sub(r"`([^`]*)`", r"<code>\1</code>", text)
    return re.sub(r"\*\*([^*]*)\*\*", r"<b>\1</b>", text)


def commands(block: str) -> list[tuple[str, str]]:
    """Each command of a block, with the text that stands below it."""
    return [tuple(part.partition("\n")[::2]) for part in re.split(r"^\$ ", block, flags=re.M)[1:]]


class Folder:
    """A folder in which the commands of the tutorial are run, so that each file has what it has at that step."""

    def __init__(self, place: str, top: str, program: list[str]) -> None:
        self.place = place
        os.symlink(os.path.join(top, "crates", "gallery", "data"), os.path.join(place, "examples"))
        with open(os.path.join(place, "superpascal"), "w") as file:
            file.write("#!/bin/sh\nexec %s \"$@\"\n" % shlex.join(program))
        os.chmod(os.path.join(place, "superpascal"), 0o755)

    def read(self, name: str) -> str:
        with open(os.path.join(self.place, name), encoding="utf-8") as file:
            return file.read()

    def run(self, command: str) -> str:
        done = subprocess.run(["sh", "-c", command], cwd=self.place, stdout=subprocess.PIPE, stderr=subprocess.STDOUT)
        return done.stdout.decode()

    def call(self, command: str) -> dict:
        """What the page does for a command of the program: its file, the text of that, its options and its input."""
        match = re.match(r"(?:echo ([^|]*)\| )?\./superpascal (.*)$", command)
        if not match:
            return {}
        words = [word for word in shlex.split(re.sub(r"\d?[<>]\S+", "", match[2]))]
        if words[0] not in COMMANDS:
            return {}
        stdin = match[1].strip() + "\n" if match[1] else ""
        file = re.search(r"<(\S+)", match[2])
        if file and file[1] != "/dev/null":
            stdin = self.read(file[1])
        has_journal = words[0] in WITH_JOURNAL
        call = {"command": words[0], "file": os.path.basename(words[1]), "text": self.read(words[1]), "input": stdin,
                "options": options_of(words[3 if has_journal else 2:])}
        return {**call, "journal": self.read(words[2])} if has_journal else call


def options_of(words: list[str]) -> list[str]:
    """The options without --show: the page shows every run with its timeline."""
    pairs = list(zip(words[::2], words[1::2]))
    return [word for pair in pairs if pair[0] != "--show" for word in pair]


def lessons(top: str, program: list[str], tasks: list[dict]) -> list[dict]:
    """The steps; ends where the program prints something else than the tutorial has."""
    with open(os.path.join(top, "docs", "TUTORIAL.md"), encoding="utf-8") as file:
        page = file.read().split("\n## Tasks\n")[0]
    steps = []
    with tempfile.TemporaryDirectory() as place:
        folder = Folder(place, top, program)
        pieces = STEP.split(page)[1:]
        for title, text in zip(pieces[::2], pieces[1::2]):
            steps.append({"title": title, "parts": parts_of(text, folder)})
    if len(steps) != len(tasks):
        raise SystemExit("%d steps of the tutorial, %d tasks" % (len(steps), len(tasks)))
    return [{**step, "task": task} for step, task in zip(steps, tasks)]


def parts_of(text: str, folder: Folder) -> list[dict]:
    """The words, texts and commands of one step."""
    parts = []
    name = None
    for index, piece in enumerate(re.split(r"^```\n", text, flags=re.M)):
        if index % 2 == 0:
            parts += [{"kind": "words", "html": inline(it)} for it in piece.split("\n\n") if it.strip()]
            match = PUT.search(piece.strip().split("\n")[-1] if piece.strip() else "")
            name = match[1] if match else None
        elif name:
            with open(os.path.join(folder.place, name), "w", encoding="utf-8") as file:
                file.write(piece)
            parts.append({"kind": "text", "name": name, "text": piece})
        else:
            shown = [command_entry(it, printed, folder) for it, printed in commands(piece)]
            parts.append({"kind": "commands", "commands": shown})
    return parts


def command_entry(command: str, printed: str, folder: Folder) -> dict:
    """A command with what it prints, which is made sure of."""
    call = folder.call(command)
    output = folder.run(command)
    if sorted(output.splitlines()) != sorted(printed.splitlines()):
        raise SystemExit("the tutorial has another output of: %s\n%s" % (command, output))
    return {"shown": command, "printed": printed, **({"call": call} if call else {})}

"""The editors: Neovim, Emacs and a stand-in for VS Code show a mistake, format and rename.

One that is missing is skipped.
"""
import os
import shutil
import subprocess

from cases import HERE, TOP

TEXT = "program p;\nvar x: integer;\nbegin\n  x := 'a'\nend.\n"
MESSAGE = "x is an integer, 'a' is a char"
FORMATTED = ["program p;", "var x: integer;", "begin", "  x := 1;", "  writeln(x)", "end."]
RENAMED = [line.replace("x", "total") for line in FORMATTED]
LATE = 300


def test(case):
    """All of them that are there."""
    for name, work in (("nvim", neovim), ("emacs", emacs), ("node", vscode)):
        if shutil.which(name):
            work(case)
        else:
            print("clients: skipped, as there is no %s" % name)


def said(case, words, client):
    """What an editor prints, by the first word of each line."""
    places = {**os.environ, "SUPERPASCAL": case.program, "TEXT": case.file("shown.sp", TEXT), "HOME": case.folder,
              "SERVER": os.path.join(TOP, "tools", "language_server"), "CLIENT": os.path.join(TOP, "editors", client)}
    got = subprocess.run(words, capture_output=True, env=places, cwd=case.folder, timeout=LATE, check=False)
    lines = [line.partition(" ") for line in got.stdout.decode().splitlines()]
    return {line[0]: line[2] for line in lines}, (got.stdout + got.stderr).decode()[-600:]


def neovim(case):
    """Its own client."""
    words = ["nvim", "--headless", "-u", "NONE", "-i", "NONE", "-n", "--cmd", "let g:superpascal_server = $SERVER",
             "--cmd", "set runtimepath^=" + os.path.join(TOP, "editors", "vim"), "-c", "filetype plugin on",
             "-c", "luafile " + os.path.join(HERE, "editors", "neovim.lua")]
    got, whole = said(case, words, "vim")
    case.check(got.get("filetype") == '"superpascal"' and MESSAGE in got.get("shown", ""), "neovim: " + whole)
    case.check(got.get("shown", "").endswith(", 3, 7]") and got.get("count") == "0", "neovim: " + whole)
    for what, wanted in (("formatted", FORMATTED), ("renamed", RENAMED)):
        case.check(got.get(what) == str(wanted).replace("'", '"'), "neovim: %s: %s" % (what, whole))


def emacs(case):
    """Eglot, if it is there."""
    has = subprocess.run(["emacs", "--batch", "--eval", "(progn (package-initialize) (require 'eglot))"],
                         capture_output=True, check=False)
    if has.returncode:
        print("clients: Emacs skipped, as there is no eglot")
        return
    got, whole = said(case, ["emacs", "--batch", "--eval", "(package-initialize)", "-l",
                             os.path.join(HERE, "editors", "emacs.el")], "emacs")
    case.check(got.get("mode") == "superpascal-mode" and MESSAGE in got.get("shown", ""), "emacs: " + whole)
    case.check("\n".join(RENAMED) in whole and "\n".join(FORMATTED) in whole, "emacs: " + whole)


def vscode(case):
    """The extension, in node."""
    got, whole = said(case, ["node", os.path.join(HERE, "editors", "vscode.js")], "vscode")
    case.check(MESSAGE in got.get("shown", "") and got.get("count") == "0", "vscode: " + whole)
    case.check("a variable (line 2) of p, an integer" in got.get("hover", ""), "vscode: " + whole)
    case.check("\\n".join(FORMATTED) in got.get("formatted", ""), "vscode: " + whole)
    case.check(got.get("renamed") == '[[1,"total"],[3,"total"],[3,"total"]]', "vscode: " + whole)
    case.check(got.get("counts") == "[3,1,2,true]" and got.get("said") == "[]", "vscode: " + whole)
    case.check("writeln" in got.get("refused", ""), "vscode: " + whole)

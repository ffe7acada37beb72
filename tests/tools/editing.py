"""The language server, as an editor speaks to it: questions, bad messages, large texts, programs that hang or die."""
import json
import os
import re
import stat
import subprocess
import tempfile
import time

from cases import EXAMPLES, TOP, read
from client import CAN, URI, Editor
from mistakes import CAUSES, FOLDER

TEXT = """program p;
type list = array [1..3] of integer; r = record a, b: integer end;
var x, y: integer; l: list; q: r;
procedure show(var z: integer; n: integer);
var i: integer;
begin for i := 1 to n do begin z := z + i; writeln(z) end end;
function f(n: integer): integer;
begin f := n + 1 end;
begin
  parallel
    x := 1; show(x, 2)
  | begin y := f(2) end
  end;
  forall i := 1 to 3 do begin if i = l[1] then end;
  q.a := 1; q.b := y
end.
"""
HOVERS = (
    ((1, 6), "type list = array [1..3] of integer && a type (line 2) of p"),
    ((2, 4), "x: integer && a variable (line 3) of p, an integer"),
    ((2, 5), "x: integer"), ((2, 20), "l: list && an array of integer (list)"),
    ((3, 12), "procedure show(var z: integer; n: integer) && targets: output && expressions: none"),
    ((3, 19), "var z: integer && a variable parameter (line 4) of show"),
    ((3, 32), "a value parameter (line 4) of show"),
    ((6, 9), "function f(n: integer): integer && targets: none"),
    ((9, 4), "process statement 1 of the parallel at 10:3 && targets: output, x && statement 2 && targets: y"),
    ((10, 4), "a variable (line 3) of p && process statement 1 of the parallel"),
    ((11, 5), "process statement 2 of the parallel at 10:3 && targets: y"),
    ((13, 3), "element statement of the forall at 14:3 && targets: none && expressions: l"),
    ((13, 9), "i: integer && the index of a forall (line 14), an integer"),
    ((13, 31), "element statement of the forall"), ((14, 5), "a: integer && a field (line 2), an integer"),
    ((5, 45), "writeln && a standard procedure"), ((0, 9), "program p"),
)
RENAMES = (
    ((2, 4), "total", None), ((1, 6), "row", None), ((1, 51), "first", None), ((6, 9), "next", None),
    ((3, 12), "Show_2", None), ((13, 9), "k", None), ((3, 19), "w", None), ((0, 8), "q2", None), ((13, 9), "x", None),
    ((2, 4), "y", "would mean something else"), ((2, 4), "q", "is already declared|would mean"),
    ((13, 9), "l", "would mean something else"), ((3, 19), "i", "already declared|would mean"),
    ((2, 4), "begin", "begin is not a name"), ((2, 4), "goto", "U1"), ((2, 4), "1x", "not a name"),
    ((2, 4), "a b", "not a name"), ((2, 4), "", "not a name"), ((2, 4), "\u00e4", "not a name"),
    ((2, 4), 7, "a new name"),
    ((2, 4), "a" * 128, "S5"), ((2, 7), "show", "already declared|would mean"), ((2, 9), "n", "no name"),
    ((5, 45), "print", "standard procedure"), ((2, 14), "int", "a type of the language"),
)


def test(case):
    """All of it."""
    for part in (causes, questions, renames, typing, bad_messages, large, faulty, ends):
        part(case)


def causes(case):
    """Each mistake is shown with the words and the place of the first line of tools/explain."""
    texts = [read(os.path.join(FOLDER, name)) for name in sorted(os.listdir(FOLDER)) if name.endswith(".sp")]
    texts += [text.encode("latin1") for text, _ in CAUSES[::4]]
    editor = Editor(case.program)
    case.check("capabilities" in editor.begun, "initialize: %s" % editor.begun)
    shown = []
    for number, text in enumerate(texts):
        try:
            text.decode("utf-8")
        except UnicodeDecodeError:
            continue
        name = "shown%d.sp" % number
        case.file(name, text)
        if not shown:
            shown.append((name, editor.open(text.decode("utf-8"))))
            continue
        editor.change(text.decode("utf-8"))
        shown.append((name, editor.shown()))
    case.check(editor.end() == 0 and not editor.notes, "the server: %s" % editor.notes)

    def compare(one):
        name, those = one
        said = case.tool("explain", ["check", name])[2]
        got = re.search(re.escape(name) + r":(\d+):\d+: (.*) \((\w+)\)\n", said)
        wanted = [(got[3], got[2], int(got[1]) - 1)] if got else []
        found = [(it["code"], it["message"], it["range"]["start"]["line"]) for it in those]
        case.check(found == wanted, "%s: shown %s, said %s" % (name, found, wanted))
        if wanted and wanted[0][0] in ("I1", "I2", "I3", "I5", "I6", "I8"):
            case.check(those[0].get("relatedInformation"), "%s: no other place" % name)

    case.each(compare, shown)


def questions(case):
    """Hover, definition, references, symbols, completion, formatting, code lenses, runs."""
    editor = Editor(case.program)
    case.check(editor.open(TEXT) == [], "the text is accepted")
    for place, wanted in HOVERS:
        got = editor.about("hover", *place)
        value = got["contents"]["value"] if got else ""
        case.check(all(part in value for part in wanted.split(" && ")), "hover at %s: %s" % (place, value))
    case.check(editor.about("hover", 5, 6) is None and editor.about("hover", 99, 9) is None, "hover of nothing")
    got = editor.about("definition", 10, 5)
    case.check(got["range"]["start"] == {"line": 2, "character": 4}, "definition: %s" % got)
    case.check(editor.about("definition", 5, 45) is None, "definition of writeln")
    got = editor.about("references", 2, 4, context={"includeDeclaration": True})
    places = [tuple(it["range"]["start"].values()) for it in got]
    case.check(places == [(2, 4), (10, 4), (10, 17)], "references: %s" % places)
    case.check(len(editor.about("references", 2, 4, context={"includeDeclaration": False})) == 2, "uses")
    tree = editor.about("documentSymbol")
    names = [it["name"] for it in tree[0]["children"]]
    case.check(names == ["list", "r", "x", "y", "l", "q", "show", "f"], "symbols: %s" % names)
    case.check([it["name"] for it in tree[0]["children"][6]["children"]] == ["z", "n", "i"], "symbols of show")
    got = {it["label"] for it in editor.about("completion", 10, 4)}
    case.check({"x", "show", "f", "writeln", "integer", "maxint"} <= got and not {"z", "i", "a"} & got,
               "completion: %s" % got)
    got = {it["label"] for it in editor.about("completion", 5, 33)}
    case.check({"x", "z", "i", "n", "show"} <= got and "f" not in got, "completion in show: %s" % got)
    got = {it["label"] for it in editor.about("completion", 13, 30)}
    case.check("i" in got, "completion in a forall: %s" % got)
    got = {it["label"] for it in editor.about("completion", 14, 4)}
    case.check(got == {"a", "b"}, "completion of fields: %s" % got)
    got = [it["command"]["title"] for it in editor.about("codeLens")]
    case.check(got == ["Run", "Witness"], "code lenses: %s" % got)
    run = editor.ask("workspace/executeCommand", {"command": "superpascal.run", "arguments": [URI]})
    case.check(run.get("status") == 3 and "text.sp:14:" in editor.said[-1] and "F4" in editor.said[-1], "run: %s" % run)
    path = case.file("formatted.sp", TEXT)
    got = editor.about("formatting", options={})
    case.check(got[0]["newText"].encode() == case.run(["format", path])[1], "formatting")
    editor.change(got[0]["newText"])
    case.check(editor.shown() == [] and editor.about("formatting", options={}) == [], "formatted twice")
    editor.change("program p; { " + "\n" + "begin x := end.")
    editor.shown()
    case.check(editor.about("completion", 1, 6) == [], "completion in a comment")
    case.check(editor.about("formatting", options={}) is None and "not formatted: 1:12: " in editor.said[-1], "refused")
    case.check(editor.end() == 0 and not editor.notes, "the server: %s" % editor.notes)
    editor = Editor(case.program, can={})
    editor.open(TEXT)
    flat = editor.about("documentSymbol")
    case.check({it["containerName"] for it in flat} == {"", "p", "show", "f"}, "a list of symbols")
    case.check(editor.about("hover", 2, 4)["contents"]["kind"] == "plaintext", "plain words")
    editor.end()


def renames(case):
    """A new name keeps what each name means, or is refused."""
    editor = Editor(case.program)
    editor.open(TEXT)
    for place, name, why in RENAMES:
        got = editor.about("rename", *place, newName=name)
        if why is not None:
            case.check(re.search(why, got.get("message", ""), re.S), "rename %s to %s: %s" % (place, name, got))
            continue
        lines = TEXT.split("\n")
        for edit in sorted(got.get("changes", {}).get(URI, []), key=lambda it: -it["range"]["start"]["character"]):
            line, first = edit["range"]["start"].values()
            lines[line] = lines[line][:first] + name + lines[line][edit["range"]["end"]["character"]:]
        status = case.run(["check", case.file("renamed.sp", "\n".join(lines))])[0]
        case.check(lines != TEXT.split("\n") and status == 0, "rename %s to %s: %s" % (place, name, got))
    case.check(editor.about("prepareRename", 2, 4)["placeholder"] == "x", "prepareRename")
    case.check("code" in editor.about("prepareRename", 5, 45), "prepareRename of writeln")
    editor.change(TEXT.replace("y := f(2)", "y := f(2"))
    editor.shown()
    message = editor.about("rename", 2, 4, newName="z9")["message"]
    case.check("not read to its end" in message, "rename in a broken text")
    editor.end()


def typing(case):
    """Forty keys in a row: what stands for a moment is shown, and the last state in the end."""
    editor = Editor(case.program, delay=200)
    text = read(os.path.join(EXAMPLES, "quicksort.sp")).decode()
    editor.open(text)
    lines = text.count("\n")
    for number, key in enumerate("{ forty keys that are typed in a row..} "):
        editor.change(key, ((lines, number), (lines, number)))
    case.check(editor.shown() == [] and editor.diagnostics.empty(), "forty keys: the last state")
    for number in range(40):
        editor.change("" if number % 2 else "x", ((0, 0), (0, number % 2)))
    got = editor.shown()
    case.check(got == [], "forty keys at the beginning: %s" % got)
    editor.change("{\U0001f600}\u00f6", ((0, 0), (0, 0)))
    got = editor.shown()
    case.check(got and got[0]["range"] == {"start": {"line": 0, "character": 4}, "end": {"line": 0, "character": 5}},
               "columns of UTF-16: %s" % got)
    editor.tell("textDocument/didClose", {"textDocument": {"uri": URI}})
    case.check(editor.diagnostics.get(timeout=60)["diagnostics"] == [], "a closed text has no diagnostics")
    case.check(editor.end() == 0 and not editor.notes, "the server: %s" % editor.notes)


def bad_messages(case):
    """Each is answered with the protocol's error, and the next question with its answer."""
    editor = Editor(case.program, begins=False)
    case.check(editor.about("hover")["code"] == -32002, "a question before initialize")
    editor.tell("textDocument/didOpen", {})
    editor.ask("initialize", {"capabilities": CAN, "processId": None})
    case.check(editor.ask("initialize", {})["code"] == -32600, "initialize twice")
    body = json.dumps({"jsonrpc": "2.0", "id": "next", "method": "nothing/here"}).encode()
    good = b"Content-Length: %d\r\n\r\n%s" % (len(body), body)
    for data in (b"\r\n\r\n", b"hello\r\n\r\n", b"Content-Length: x\r\n\r\n{}", b"Content-Length: -5\r\n\r\n",
                 b"{" * 5000,
                 b"Content-Length: 99999999999\r\n\r\n", b"Content-Length: 5\r\n\r\n{\"a\":", b"\0\xff\xfe\r\n\r\n",
                 b"Content-Length: 20\r\n\r\n{\"id\": 1, \"method\": \"shutdown\"}", b"Content-Length: 4\r\n\r\nnull",
                 b"Content-Length: 2\r\n\r\n[]", b"Content-Length: 2\r\n\r\n\xff\xff", b"Content-Type: x\r\n\r\n{}",
                 b"Content-Length: 3\r\n\r\n{}", b"Content-Length: %d\r\n\r\n%s" % (20000, b"[" * 20000)):
        editor.put(data + good)
        first = editor.answers.get(timeout=60)
        while first["id"] is None and editor.answers.qsize():
            case.check(first["error"]["code"] in (-32700, -32600), "%s: %s" % (data[:40], first))
            first = editor.answers.get(timeout=60)
        while first["id"] is None:
            first = editor.answers.get(timeout=60)
        case.check(first["id"] == "next" and first["error"]["code"] == -32601, "after %s: %s" % (data[:40], first))
    for method, params, code in (
            ("textDocument/hover", {}, -32602), ("textDocument/hover", [1], -32602),
            ("textDocument/hover", "x", -32602),
            ("textDocument/hover", {"textDocument": {"uri": "file:///none"}}, -32602), ("x" * 3000, {}, -32601),
            ("workspace/executeCommand", {"command": "rm"}, -32602),
            ("textDocument/rename", {"textDocument": 5}, -32602)):
        got = editor.ask(method, params)
        case.check(got.get("code") == code, "%s %s: %s" % (method[:40], params, got))
    editor.send({"id": {}, "method": "textDocument/hover"})
    case.check(editor.answers.get(timeout=60)["error"]["code"] == -32600, "an id that is none")
    for method, params in (("textDocument/didChange", {}), ("textDocument/didOpen", {"textDocument": 3}), ("odd", None),
                           ("$/cancelRequest", {}), ("textDocument/didClose", {"textDocument": {"uri": []}})):
        editor.tell(method, params)
    editor.open(TEXT)
    for position in ({}, {"line": -1, "character": 0}, {"line": "1", "character": 0}, {"line": 1}, None, 7):
        got = editor.ask("textDocument/hover", {"textDocument": {"uri": URI}, "position": position})
        case.check(got.get("code") == -32602, "position %s: %s" % (position, got))
    for change in (None, {}, {"text": 5}, {"text": "x", "range": 5}, {"text": "x", "range": {}}):
        editor.tell("textDocument/didChange", {"textDocument": {"uri": URI}, "contentChanges": [change]})
    editor.send({"id": 5, "result": None})
    case.check(editor.about("hover", 2, 4)["contents"], "the text is as it was")
    for text in ("", "\ud800", "\0", "(" * 30000, "begin " * 30000, "\r\r\n\r", "program \ud83d", "x." * 5000):
        editor.change(text)
        case.check(len(editor.shown()) == 1, "diagnostics of %r" % text[:20])
        for method in ("documentSymbol", "codeLens", "formatting", "completion", "hover", "definition", "references"):
            got = editor.about(method, 0, 1)
            case.check(not isinstance(got, dict) or "code" not in got, "%s of %r: %s" % (method, text[:20], got))
    editor.change(TEXT, ((0, 0), (9, 9)))
    number = editor.begin("textDocument/hover", {"textDocument": {"uri": URI}, "position": {"line": 2, "character": 4}})
    editor.tell("$/cancelRequest", {"id": number})
    got = editor.answer(number)
    case.check("result" in got or got["error"]["code"] == -32800, "a question that is cancelled: %s" % got)
    case.check(editor.end() == 0 and not editor.notes, "the server: %s" % editor.notes)


def large(case):
    """A text of 1 MB: each key is taken at once, and a look at an older state is cut off."""
    body = "".join("  x := x + %d; if x > 3 then y := x else begin y := 2 end;\n" % it for it in range(17000))
    text = "program p; var x, y: integer; begin\n" + body + "x := 'a' end.\n"
    editor = Editor(case.program)
    begun = time.time()
    got = editor.open(text)
    first = time.time() - begun
    case.check([it["code"] for it in got] == ["Y5"], "1 MB: %s" % got)
    begun = time.time()
    for number in range(20):
        editor.change("z", ((0, 0), (0, 0)))
        time.sleep(0.05)
    number = editor.begin("textDocument/documentSymbol", {"textDocument": {"uri": URI}})
    editor.change("", ((0, 0), (0, 20)))
    taken = time.time() - begun
    got = editor.answer(number)
    case.check("result" in got or got["error"]["code"] == -32801, "1 MB: an older question: %s" % str(got)[:200])
    shown = editor.shown()
    case.check([it["code"] for it in shown] == ["Y5"] and taken < 20, "1 MB: %s after %.1f s" % (shown, taken))
    case.check(editor.about("hover", 9, 2)["contents"] and first < 100, "1 MB: hover")
    case.check(editor.end() == 0 and not editor.notes, "the server: %s" % editor.notes)


def script(case, name, text):
    """A program made of a script, which has the real one as $REAL."""
    path = case.file(name, "#!/bin/sh\nREAL='%s'\n%s\n" % (case.program, text))
    os.chmod(path, os.stat(path).st_mode | stat.S_IXUSR)
    return path


def faulty(case):
    """A program that hangs or dies is started again; one that does so for ever, or is none, is named once."""
    once = "[ -e %s ] || { : >%s; %s; }; exec \"$REAL\" \"$@\""
    for name, text in (("hangs", "sleep 1000"), ("dies", "kill -9 $$")):
        mark = os.path.join(case.folder, name + ".mark")
        editor = Editor(script(case, name, once % (mark, mark, text)), options={"seconds": 5})
        got = editor.open("program p; begin x := 1 end.")
        case.check([it["code"] for it in got] == ["N1"] and not editor.said,
                   "%s once: %s %s" % (name, got, editor.said))
        editor.end()
    for name, text, wanted in (("hung", "sleep 1000", "did not end in 1 seconds"), ("dead", "kill -11 $$", "signal 11"),
                               ("odd", "echo what", "answers"), ("odder", "echo what >&2; exit 9", "status 9: what")):
        editor = Editor(script(case, name, text), options={"seconds": 1})
        case.check(editor.open("program p; begin end.") == [], name)
        editor.change("program p; begin end. ")
        case.check(editor.shown() == [] and len(editor.said) == 1 and wanted in editor.said[0],
                   "%s: %s" % (name, editor.said))
        got = editor.about("formatting", options={})
        case.check("code" in got or name == "odd", "%s: formatting: %s" % (name, got))
        case.check(editor.end() == 0 and not editor.notes, "%s: %s" % (name, editor.notes))
    editor = Editor("/no/such/program")
    editor.open("program p; begin end.")
    case.check(len(editor.said) == 1 and "/no/such/program" in editor.said[0], "no program: %s" % editor.said)
    editor.end()


def ends(case):
    """The status tells whether the editor has shut down; nothing is left."""
    with tempfile.TemporaryDirectory() as folder:
        editor = Editor(case.program, TMPDIR=folder)
        editor.open(TEXT)
        case.check(editor.end() == 0 and os.listdir(folder) == [], "shutdown and exit")
        for last in (b"", b"Content-Length: 50\r\n\r\n{", b"Content-Le"):
            editor = Editor(case.program, TMPDIR=folder)
            editor.open(TEXT)
            editor.put(last)
            editor.server.stdin.close()
            case.check(editor.server.wait(timeout=60) == 1 and os.listdir(folder) == [], "the end after %s" % last)
        editor = Editor(script(case, "slow", "sleep 1000"), TMPDIR=folder)
        editor.version += 1
        editor.tell("textDocument/didOpen", {"textDocument": {"uri": URI, "version": 1, "text": TEXT}})
        while not os.listdir(folder) or not os.listdir(os.path.join(folder, os.listdir(folder)[0])):
            time.sleep(0.05)
        editor.server.terminate()
        case.check(editor.server.wait(timeout=60) == 1 and os.listdir(folder) == [], "the end by a signal")
    got = subprocess.run([os.path.join(TOP, "tools", "language_server"), "--what"], capture_output=True, check=False)
    case.check(got.returncode == 20 and got.stderr.count(b"\n") == 1, "a word that is not known")

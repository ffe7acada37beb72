"""Programs with one mistake each: the first line that explain adds has the place and names the cause."""
import os
import re

from cases import HERE, read

FOLDER = os.path.join(HERE, "mistakes")
TICKS = ["--workers", "1", "--ticks", "100000"]
LINES = 4
HEAD = "program p; var a, b: integer; c: char; begin "

# a program, and regular expressions for the line that names its cause
CAUSES = (
    (HEAD + "if a == 1 then end.", "there is no =="),
    (HEAD + "if a != 1 then end.", "not equal is <>"),
    (HEAD + "if a = 1 or b = 2 then end.", "two comparisons && parentheses|\\(a = b\\)"),
    (HEAD + "a := (b + 1; b := 2 end.", "missing \\) before ;"),
    (HEAD + "while a < 3 a := a + 1 end.", "missing do before a"),
    (HEAD + "for a 1 to 3 do end.", "missing := before 1"),
    (HEAD + "for a := 1 3 do end.", "missing to before 3"),
    (HEAD + "case a 1: end end.", "missing of before 1"),
    (HEAD + "a++ end.", "there is no \\+\\+: write a := a \\+ 1"),
    (HEAD + "a += 1 end.", "there is no \\+=: write a := a \\+ 1"),
    (HEAD + "if a = 1 then b := 2; else b := 3 end.", "no ; before else"),
    (HEAD + "writeln() end.", "without parameters no parentheses"),
    (HEAD + "begin a := 1 end", r"begin of 1:40 has no end"),
    (HEAD + "a := 1 end. b", r"ended with its last end"),
    (HEAD + "a := 1 | b := 2 end.", "parallel"),
    ("program p; const n := 3; begin end.", "defined with =, not with :="),
    ("program p; const n = 3; m = n + 1; begin end.", "value of a constant is a number, a name or a string"),
    ("program p; type t = array [1..2, 1..3] of char; begin end.", "one index"),
    ("program p; var a: array [1..2] of char; begin end.", "a type needs a name"),
    ("program p; var end: char; begin end.", "end is a word of the language"),
    ("program p; begin { a (* b } *) end.", "comments do not nest"),
    (HEAD + "a := 1 (* a (* b *) c *) end.", "comments do not nest: this one ended at 1:64"),
    ("\xef\xbb\xbfprogram p; begin end.", "byte order mark"),
    ("\xff\xfep\0r\0o\0g\0r\0a\0m\0", "UTF-16"),
    ("program p; var gr\xc3\xb6\xc3\x9fe: integer; begin end.", "\xf6 is not a letter"),
    ("program p; begin write(\xe2\x80\x98a\xe2\x80\x99) end.", "single quotes"),
    ("program p; begin write('it's) end.", "closing quote|missing"),
    (HEAD + "inc(a) end.", "x := x \\+ 1"),
    (HEAD + "exit end.", "there is no exit"),
    (HEAD + "a := length end.", "there is no length"),
    (HEAD + "conut := 1 end.", "not declared"),
    ("program p; var count: integer; begin conut := 1 end.", "a near name is count"),
    ("program p; procedure q; var x: integer; begin end; begin x := 1 end.", "x is not declared here && of q"),
    ("program p; const n = 1; procedure q(var x: integer); begin end; begin q(n) end.",
     "n is a constant \\(line 1\\) and cannot be changed: parameter x of q"),
    ("program p; function f: integer; begin f := 1 end; begin f end.", "f is a function \\(line 1\\), not a statement"),
    (HEAD + "receive(a, b + 1) end.", "receive puts a value into a variable, and b \\+ 1 is not one"),
    (HEAD + "open(a) end.", "a is an integer; open takes a channel"),
    (HEAD + "c := 'ab' end.", "'ab' is a string && array of char"),
    (HEAD + "if c < a then end.", "c is a char, a is an integer; < compares values of one type"),
    ("program p; type t = array [1..2] of char; var x: t; a: integer; begin a := x end.",
     "a is an integer, x is an array of char \\(t\\)"),
    ("program p; type t = record x: char end; var r: t; begin r[1] := 'a' end.", "r is a record \\(t\\), not an array"),
    ("program p; const n = -4; type t = array [1..3] of integer; var a: t; "
     "begin a[2] := 7; a[a[2] - n * sqr(1)] := 1 end.",
     r"index a\[2\] - n \* sqr\(1\) = 11 is outside the bounds 1\.\.3 of a: a\[2\] is 7"),
    ("program p; type t = array [1..3] of char; var a: t; function f: integer; begin f := 9 end; "
     "begin a[f + 1] := 'a' end.",
     r"index f \+ 1 is outside the bounds 1\.\.3 of a"),
    ("program p; function g: integer; procedure q; begin parallel end end; begin q; g := 1 end; begin end.",
     "q, which this function calls, has parallel at 1:52"),
)


def test(case):
    """The programs of the folder, and the short ones of the table."""
    rows = [line.split("\t") for line in read(os.path.join(FOLDER, "expected.tsv")).decode().splitlines()
            if not line.startswith("#")]
    named = sorted(name for name in os.listdir(FOLDER) if name.endswith(".sp"))
    case.check(named == sorted(row[0] for row in rows), "mistakes: the folder and expected.tsv differ")
    for name in named:
        case.file(name, read(os.path.join(FOLDER, name)))
    case.each(lambda row: caused(case, *row), rows)
    case.each(lambda it: caused(case, case.file("cause%d.sp" % it, CAUSES[it][0]).rpartition("/")[2], "",
                                CAUSES[it][1]), range(len(CAUSES)))


def caused(case, name, place, wanted):
    """The line that names the cause, and the three after it."""
    status, _, notes = case.run(["run", name, *TICKS])
    got, _, said = case.tool("explain", ["run", name, *TICKS])
    case.check(got == status and said.startswith(notes) and "Traceback" not in said, "%s: %s" % (name, said[-300:]))
    lines = said[len(notes):].split("\n")[:LINES]
    rule = notes.split()[1] if status == 1 else ""
    first = re.match(re.escape(name) + r":(\d+:\d+): .* ?\(?%s\)?" % rule, lines[0])
    missed = [part for part in wanted.split(" && ") if not re.search(part, "\n".join(lines), re.I)]
    case.check(first and place in ("", first[1]) and not missed, "%s: %s, lacks %s" % (name, lines, missed))

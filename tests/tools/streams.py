"""tools/explain --first: inputs that do not end, and SIGTERM, after which nothing is left."""
import os
import signal
import subprocess
import time

from cases import TOP
from processes import calls_of

LONG = "program long; var i: integer; begin i := 0; while i >= 0 do i := (i + 1) mod 1000 end."
READS = "program reads; var x: integer; begin read(x); writeln(x + 1) end."
REFUSED = "program refused; begin read(x) end."
SECONDS = 60


def test(case):
    """All of them."""
    for name, text in (("long", LONG), ("reads", READS), ("refused", REFUSED), ("no_code", "superpascal code 0\n")):
        case.file(name + ".sp", text)
    case.each(lambda it: unwritten(case, *it), (
        (["run", "refused.sp"], 1, "refused N1 1:29\nrefused.sp:1:29: x is not declared (N1)\n"),
        (["witness", "refused.sp"], 1, "refused N1 1:29\nrefused.sp:1:29: x is not declared (N1)\n"),
        (["exec", "no_code.sp"], 10, "bad code 1\nno_code.sp:1:1: the first line of a code file is "
                                     "superpascal code 1 (bad code)\n"),
        (["run", "reads.sp", "--tick", "3"], 2, "bad words\n  no option: --tick; near: --ticks\n"),
        (["run", "nowhere.sp"], 5, "read fault\n  no file: nowhere.sp\n")))
    endless(case)
    ended(case)


def begun(case, words, stdin):
    """Begins a call of explain --first."""
    return subprocess.Popen([os.path.join(TOP, "tools", "explain"), "--first", *words], stdin=stdin, cwd=case.folder,
                            stdout=subprocess.PIPE, stderr=subprocess.PIPE,
                            env={**os.environ, "SUPERPASCAL": case.program, "TMPDIR": case.folder})


def unwritten(case, words, status, notes):
    """What is refused ends, though nobody writes the input or closes it."""
    read, write = os.pipe()
    with begun(case, words, read) as process:
        try:
            process.wait(SECONDS)
        except subprocess.TimeoutExpired:
            process.kill()
        said = process.stderr.read().decode()
    os.close(read)
    os.close(write)
    case.check((process.returncode, said) == (status, notes), "%s: %s, %s" % (words, process.returncode, said[:300]))


def endless(case):
    """An input and a file that never end."""
    with open("/dev/zero", "rb") as zeros:
        for words, status, wanted in (
                (["run", "reads.sp"], 7, "input too long\n"),
                (["check", "/dev/zero"], 1, "refused L1 1:1\n/dev/zero:1:1: the program has more")):
            with begun(case, words, zeros) as process:
                said = process.communicate()[1].decode()
            case.check(process.returncode == status and said.startswith(wanted), "%s: %s" % (words, said[:300]))


def ended(case):
    """A signal ends the calls of the program, too, and leaves no file."""
    path = os.path.join(case.folder, "long.sp")
    before = set(os.listdir(case.folder))
    with begun(case, ["run", path, "--ticks", "1000000000"], subprocess.DEVNULL) as process:
        limit = time.monotonic() + SECONDS
        while len(calls_of(path)) < 2 and time.monotonic() < limit:
            time.sleep(0.1)
        process.send_signal(signal.SIGTERM)
        said = process.communicate()[1]
    left = calls_of(path), set(os.listdir(case.folder)) - before
    case.check((process.returncode, left, said) == (143, ([], set()), b""), "SIGTERM: %s, left %s, %s" % (
        process.returncode, left, said))

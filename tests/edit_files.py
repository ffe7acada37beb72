"""Edits of sources: how one is read and applied, and copies of what is built to try it on."""
import os
import shutil

TOP = os.path.realpath(os.path.join(os.path.dirname(os.path.abspath(__file__)), ".."))


def link_or_copy(one, other):
    """Gives a file that was built a second name, so that libraries need not be built again; copies others."""
    if os.sep + "out" + os.sep in one[len(TOP):]:
        try:
            return os.link(one, other)
        except OSError:
            pass
    return shutil.copy2(one, other)


def edited(edit, folder):
    """The texts of the files of a folder as an edit changes them, by their paths there; or why it cannot be applied."""
    texts, file, old = {}, None, None
    for line in open(edit, encoding="utf-8"):
        word, _, rest = line.rstrip("\n").partition(": ")
        if word == "file":
            file = rest.strip()
            if not os.path.isfile(os.path.join(folder, file)):
                return "no file " + file
            if file not in texts:
                texts[file] = open(os.path.join(folder, file), encoding="utf-8").read()
        elif word == "old":
            old = rest
            if texts[file].count(old) != 1:
                return "stands %d times: %s" % (texts[file].count(old), old.strip())
        elif word.rstrip(":") == "new":
            texts[file] = texts[file].replace(old, rest)
    return texts

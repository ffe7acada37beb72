"""The modules of page/site as one script: each behind those that it imports, without the words import and export.

An import stands on one line and renames nothing. No two modules have the same name at their top.
"""
from __future__ import annotations

import os
import re

IMPORT = re.compile(r'^import \{ .* \} from "\./(\w+\.mjs)";\n', flags=re.M)
EXPORT = re.compile(r"^export (?=async function|function|class|const)", flags=re.M)
TOP = re.compile(r"^(?:export )?(?:async )?(?:function|class|const|let) (\w+)", flags=re.M)


def bundle(folder: str, start: str) -> str:
    """The script that begins with this module."""
    order: list[str] = []
    texts: dict[str, str] = {}

    def visit(name: str) -> None:
        if name in texts:
            return
        with open(os.path.join(folder, name), encoding="utf-8") as file:
            texts[name] = file.read()
        for other in IMPORT.findall(texts[name]):
            visit(other)
        order.append(name)

    visit(start)
    owner: dict[str, str] = {}
    for name in order:
        for word in TOP.findall(texts[name]):
            if word in owner:
                raise SystemExit("%s and %s both have the name %s at their top" % (owner[word], name, word))
            owner[word] = name
    parts = ["// %s\n%s" % (name, EXPORT.sub("", IMPORT.sub("", texts[name])).strip()) for name in order]
    rest = [line for part in parts for line in part.split("\n") if re.match(r"(import|export)\b", line)]
    if rest:
        raise SystemExit("an import or export of another form: " + rest[0])
    return '"use strict";\n(() => {\n' + "\n\n".join(parts) + "\n})();\n"

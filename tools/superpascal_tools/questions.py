"""The questions of the Language Server Protocol about one text, each with its answer."""
from __future__ import annotations

import os
import urllib.parse
from typing import Any, Callable, NamedTuple, Optional

from . import answers, diagnoses, occurrences
from .asides import Aside, Room
from .documents import Text, decoded
from .rule_pages import TOP
from .messages import BAD_PARAMS, FAILED, Bad
from .errors import ToolError

WARNING, INFO = 2, 3
SHOWN = 20
COMMANDS = [name for _, name in answers.COMMANDS]


class Desk(NamedTuple):
    """What an answer needs: calls of the program, a folder, what the editor can do, and messages for the user."""

    aside: Callable[..., Aside]
    room: Room
    can: Callable[..., Any]
    say: Callable[[str, int], None]


Answer = Callable[[Desk, Text, dict[str, Any]], Any]


def formatting(desk: Desk, text: Text, _params: dict[str, Any]) -> Optional[list[dict[str, Any]]]:
    """The text in its canonical layout, as one edit. A text that is refused stays, and why is said."""
    caller = desk.aside()
    answer = desk.room.ask("format", text.data, caller)
    found = diagnoses.refusal(answer, "")
    if found is not None:
        desk.say("not formatted: " + diagnoses.worded(found, diagnoses.caused(text, found, caller)), WARNING)
        return None
    if answer.output == text.data:
        return []
    return [{"range": text.whole(), "newText": decoded(answer.output)}]


def hover(desk: Desk, text: Text, params: dict[str, Any]) -> Any:
    """What stands at a position."""
    formats = desk.can("textDocument", "hover", "contentFormat")
    is_marked = isinstance(formats, list) and "markdown" in formats
    return answers.hover(text, params.get("position"), desk.aside(), desk.room, is_marked)


def references(_desk: Desk, text: Text, params: dict[str, Any]) -> Any:
    """All places of a name."""
    context = params.get("context")
    with_declaration = isinstance(context, dict) and context.get("includeDeclaration") is True
    return occurrences.references(text, params.get("position"), with_declaration)


def symbols(desk: Desk, text: Text, _params: dict[str, Any]) -> Any:
    """The names of a text, as a tree if the editor shows one."""
    tree = answers.symbols(text)
    can = desk.can("textDocument", "documentSymbol", "hierarchicalDocumentSymbolSupport")
    return tree if can is True else answers.flat(text, tree)


def prepare(_desk: Desk, text: Text, params: dict[str, Any]) -> Any:
    """The name that would be given another one."""
    at, declared = occurrences.renamed(text, params.get("position"))
    return {"range": text.range_of(text.outline().tokens[at]), "placeholder": declared.name}


def rename(desk: Desk, text: Text, params: dict[str, Any]) -> Any:
    """Another name in all its places, if the program then says the same of the text as before."""
    edits, after = occurrences.rename(text, params.get("position"), params.get("newName"))
    caller = desk.aside()
    before, found = (diagnoses.checked(it, caller, desk.room) for it in (text, after))
    if found is not None and (before is None or before.rule != found.rule or
                              text.index_of(before.place) != after.index_of(found.place)):
        said = diagnoses.caused(after, found, caller)
        raise Bad(FAILED, "with the name %s: %s" % (params.get("newName"), diagnoses.worded(found, said)))
    return {"changes": {text.uri: edits}}


def execute(desk: Desk, text: Text, params: dict[str, Any]) -> Any:
    """Runs the program of the text on an empty input, and says what tools/explain says of the run."""
    if params.get("command") not in COMMANDS:
        raise Bad(BAD_PARAMS, "no command %s" % str(params.get("command"))[:100])
    command = params["command"].partition(".")[2]
    explain, path = desk.aside(os.path.join(TOP, "tools", "explain")), desk.aside().path
    name = os.path.basename(urllib.parse.unquote(text.uri)) or "the program"
    try:
        answer = desk.room.ask(command, text.data, explain, ["--program", path])
    except ToolError as error:
        raise Bad(FAILED, "%s: %s" % (name, error)) from None
    said = (answer.output.decode("utf-8", "replace") + answer.notes).splitlines()
    told = [desk.room.unnamed(line, name) for line in said]
    desk.say("\n".join([command + " " + name] + told[:SHOWN] + [".."] * (len(told) > SHOWN)), INFO)
    return {"status": answer.status, "lines": told}


QUESTIONS: dict[str, Answer] = {
    "textDocument/formatting": formatting,
    "textDocument/hover": hover,
    "textDocument/definition": lambda _, text, params: occurrences.definition(text, params.get("position")),
    "textDocument/references": references,
    "textDocument/documentSymbol": symbols,
    "textDocument/prepareRename": prepare,
    "textDocument/rename": rename,
    "textDocument/completion": lambda _, text, params: answers.completion(text, params.get("position")),
    "textDocument/codeLens": lambda _, text, params: answers.lenses(text),
    "workspace/executeCommand": execute,
}
CAPABILITIES = {
    "textDocumentSync": {"openClose": True, "change": 2}, "hoverProvider": True, "definitionProvider": True,
    "referencesProvider": True, "documentSymbolProvider": True, "documentFormattingProvider": True,
    "renameProvider": {"prepareProvider": True}, "completionProvider": {"triggerCharacters": ["."]},
    "codeLensProvider": {}, "executeCommandProvider": {"commands": COMMANDS},
}

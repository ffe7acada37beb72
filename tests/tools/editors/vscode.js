// Runs editors/vscode with a stand-in for VS Code: it opens a text, and prints what the editor is given.
"use strict";
const Module = require("module");
const fs = require("fs");

class Position {
  constructor(line, character) { Object.assign(this, { line, character }); }
}
class Range {
  constructor(start, end) { Object.assign(this, { start, end }); }
  toJSON() { return [this.start, this.end]; }
}
const plain = (...names) => class {
  constructor(...given) { names.forEach((name, at) => { this[name] = given[at]; }); }
};
const events = {}, providers = {}, shown = [], said = [];
const on = (name) => (work) => { events[name] = work; return { dispose() {} }; };
const uri = { toString: () => "file:///text.sp" };
const text = fs.readFileSync(process.env.TEXT, "utf8");
const document = { languageId: "superpascal", uri, version: 1, getText: () => text };
const registering = new Proxy({
  createDiagnosticCollection: () => ({ set: (_, those) => shown.push(those), dispose() {} }),
}, {
  get: (target, name) => target[name] || ((_, provider) => { providers[name] = provider; return { dispose() {} }; }),
});
const stand_in = {
  Position, Range, MarkdownString: plain("value"), Hover: plain("contents", "range"), Location: plain("uri", "range"),
  Diagnostic: plain("range", "message", "severity"), DiagnosticSeverity: { Error: 0 },
  CodeLens: plain("range", "command"),
  DiagnosticRelatedInformation: plain("location", "message"), CompletionItem: plain("label", "kind"),
  DocumentSymbol: plain("name", "detail", "kind", "range", "selectionRange"),
  TextEdit: { replace: (range, newText) => ({ range, newText }) },
  WorkspaceEdit: class { constructor() { this.all = []; } set(_, edits) { this.all.push(...edits); } },
  Uri: { parse: (it) => it }, languages: registering, commands: { registerCommand: () => ({}) },
  window: { showErrorMessage: (words) => said.push(words), showWarningMessage: (words) => said.push(words) },
  workspace: {
    textDocuments: [document], getConfiguration: () => ({ get: () => process.env.SERVER }),
    onDidOpenTextDocument: on("open"), onDidChangeTextDocument: on("change"), onDidCloseTextDocument: on("close"),
  },
};
const load = Module._load;
Module._load = (name, ...rest) => (name === "vscode" ? stand_in : load(name, ...rest));
const say = (what, value) => console.log(what, JSON.stringify(value));
const pause = (until) => new Promise((done) => {
  const look = setInterval(() => { if (until()) { clearInterval(look); done(); } }, 20);
});

async function main() {
  const context = { subscriptions: [] };
  require(process.env.CLIENT).activate(context);
  await pause(() => shown.length > 0);
  say("shown", shown[0].map((it) => [it.code.value, it.message, it.range.start]));
  const from = (line, first, last) => new Range(new Position(line, first), new Position(line, last));
  document.version = 2;
  events.change({ document, contentChanges: [{ range: from(3, 7, 10), text: "1;writeln(x)" }] });
  await pause(() => shown.length > 1);
  say("count", shown[1].length);
  const at = new Position(1, 4);
  const all = {
    hover: await providers.registerHoverProvider.provideHover(document, at),
    definition: await providers.registerDefinitionProvider.provideDefinition(document, at),
    references: await providers.registerReferenceProvider.provideReferences(document, at, { includeDeclaration: true }),
    symbols: await providers.registerDocumentSymbolProvider.provideDocumentSymbols(document),
    formatted: await providers.registerDocumentFormattingEditProvider.provideDocumentFormattingEdits(document),
    completion: await providers.registerCompletionItemProvider.provideCompletionItems(document, new Position(3, 2)),
    lenses: await providers.registerCodeLensProvider.provideCodeLenses(document),
    renamed: (await providers.registerRenameProvider.provideRenameEdits(document, at, "total")).all,
  };
  say("hover", all.hover.contents.value);
  say("formatted", all.formatted.map((it) => it.newText));
  say("renamed", all.renamed.map((it) => [it.range.start.line, it.newText]));
  say("counts", [all.references.length, all.symbols[0].children.length, all.lenses.length, all.completion.length > 20]);
  for (const name of ["begin", "writeln"]) {
    await providers.registerRenameProvider.provideRenameEdits(document, at, name)
      .catch((error) => say("refused", error.message));
  }
  context.subscriptions.forEach((it) => it.dispose && it.dispose());
  say("said", said);
}

main();

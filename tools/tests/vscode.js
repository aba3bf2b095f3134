"use strict";
// Runs the extension of VS Code in a model of VS Code, on one design: node vscode.js EXTENSION DESIGN SERVER ..
const Module = require("module");
const fs = require("fs");
const path = require("path");

const [folder, design, ...server] = process.argv.slice(2);
const text = fs.readFileSync(design, "utf8");
const commands = {};
const providers = {};
const shown = { diagnostics: [], tasks: [], messages: [] };

class Range {
  constructor(line, character, endLine, endCharacter) {
    this.start = { line, character };
    this.end = { line: endLine, character: endCharacter };
  }

  intersection(other) {
    return this.start.line <= other.end.line && other.start.line <= this.end.line ? this : undefined;
  }
}

const record = (...names) => class {
  constructor(...values) {
    names.forEach((name, at) => { this[name] = values[at]; });
  }
};
class WorkspaceEdit {
  constructor() { this.edits = []; }

  replace(uri, range, newText) { this.edits.push({ line: range.start.line, newText }); }
}
const provider = (name) => (_, it) => { providers[name] = it; };
const uri = { toString: () => `file://${design}`, path: design, fsPath: design };
const document = { uri, languageId: "aadl", version: 1, getText: () => text };
const vscode = {
  Range, WorkspaceEdit, Uri: { parse: (it) => it },
  Diagnostic: record("range", "message", "severity"), DiagnosticSeverity: { Error: 0, Warning: 1 },
  Location: record("uri", "range"), Hover: record("contents"), CompletionItem: record("label", "kind"),
  DocumentSymbol: record("name", "detail", "kind"), FoldingRange: record("start", "end", "kind"),
  FoldingRangeKind: { Comment: 1, Region: 3 }, CodeAction: record("title", "kind"),
  CodeActionKind: { QuickFix: "quickfix" }, TextEdit: { replace: (range, newText) => ({ range, newText }) },
  ProcessExecution: record("program", "words"), TaskScope: { Workspace: 2 },
  Task: record("definition", "scope", "name", "source", "execution", "matcher"),
  tasks: { executeTask: (it) => shown.tasks.push(it) },
  window: { activeTextEditor: { document }, showErrorMessage: (it) => shown.messages.push(it),
            showWarningMessage: (it) => shown.messages.push(it) },
  workspace: { textDocuments: [document], getConfiguration: () => ({ get: () => server }),
               onDidOpenTextDocument: () => 0, onDidChangeTextDocument: () => 0, onDidCloseTextDocument: () => 0 },
  commands: { registerCommand: (name, work) => { commands[name] = work; } },
  languages: new Proxy({
    createDiagnosticCollection: () => ({ set: (_, found) => { shown.diagnostics = found; }, clear: () => 0 }),
  }, { get: (known, name) => known[name] || provider(name) }),
};
const load = Module._load;
Module._load = (name, ...more) => (name === "vscode" ? vscode : load(name, ...more));

const at = (needle, more = 0) => {
  const before = text.slice(0, text.indexOf(needle) + more).split("\n");
  return { line: before.length - 1, character: before[before.length - 1].length };
};

async function main() {
  const extension = require(path.join(folder, "extension.js"));
  await extension.activate({ subscriptions: [] });
  const { registerRenameProvider: renames, registerHoverProvider: hovers } = providers;
  const symbols = await providers.registerDocumentSymbolProvider.provideDocumentSymbols(document);
  const [wrong] = shown.diagnostics;
  const fixes = await providers.registerCodeActionsProvider.provideCodeActions(document, wrong.range);
  const renamed = await renames.provideRenameEdits(document, at("Counter\n"), "Sum");
  const refused = await renames.provideRenameEdits(document, at("Counter\n"), "end").catch((why) => why.message);
  const found = {
    commands: Object.keys(commands).sort(),
    diagnostics: shown.diagnostics.map((it) => [it.range.start.line, it.message.split("\n")[0], it.severity]),
    fix: fixes.map((it) => it.edit.edits),
    symbols: symbols.map((it) => it.name),
    hover: (await hovers.provideHover(document, at("Period =>"))).contents,
    labels: (await providers.registerCompletionItemProvider.provideCompletionItems(document, at("x + i"))).length > 0,
    definition: (await providers.registerDefinitionProvider.provideDefinition(document, at("x + i"))).range.start.line,
    references: (await providers.registerReferenceProvider.provideReferences(document, at("x + i"))).length,
    foldings: (await providers.registerFoldingRangeProvider.provideFoldingRanges(document)).length,
    renamed: renamed.edits.map((it) => it.line),
    prepared: (await renames.prepareRename(document, at("Counter\n"))).start,
    refused,
  };
  await commands["pals.restart"]();
  commands["pals.check"]();
  found.task = shown.tasks.map((it) => [it.execution.program, it.execution.words, it.matcher]);
  await extension.deactivate();
  found.messages = shown.messages;
  process.stdout.write(JSON.stringify(found));
}

main().catch((why) => { process.stderr.write(`${why.stack}\n`); process.exit(1); });

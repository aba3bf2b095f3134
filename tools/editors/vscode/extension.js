"use strict";
// Starts the language server of pals for designs (.aadl), and passes its answers to VS Code.
const vscode = require("vscode");
const { Client } = require("./client");

const DESIGNS = { language: "aadl", scheme: "file", pattern: "**/*.aadl" };
let client = null;
let diagnostics = null;
// The diagnostics of each text as the server sent them, with the data of their fixes.
const sent = new Map();

const range = (it) => new vscode.Range(it.start.line, it.start.character, it.end.line, it.end.character);
const plain = (it) => ({ start: place(it.start), end: place(it.end) });
const place = (it) => ({ line: it.line, character: it.character });
const isDesign = (document) => document.languageId === "aadl" && document.uri.path.endsWith(".aadl");
const about = (document) => ({ textDocument: { uri: document.uri.toString() } });
const at = (document, position) => ({ ...about(document), position: place(position) });

function changes(edit) {
  const found = new vscode.WorkspaceEdit();
  for (const [uri, edits] of Object.entries(edit.changes)) {
    for (const it of edits) found.replace(vscode.Uri.parse(uri), range(it.range), it.newText);
  }
  return found;
}

function diagnostic(it) {
  const level = it.severity === 1 ? vscode.DiagnosticSeverity.Error : vscode.DiagnosticSeverity.Warning;
  const made = new vscode.Diagnostic(range(it.range), it.message, level);
  made.source = it.source;
  made.code = it.code;
  return made;
}

function notified(method, params) {
  if (method === "textDocument/publishDiagnostics") {
    sent.set(params.uri, params.diagnostics);
    diagnostics.set(vscode.Uri.parse(params.uri), params.diagnostics.map(diagnostic));
  } else if (method === "window/showMessage") {
    vscode.window.showWarningMessage(params.message);
  }
}

function symbol(it) {
  const made = new vscode.DocumentSymbol(it.name, it.detail, it.kind - 1, range(it.range), range(it.selectionRange));
  made.children = (it.children || []).map(symbol);
  return made;
}

function completion(it) {
  const made = new vscode.CompletionItem(it.label, it.kind - 1);
  made.detail = it.detail;
  return made;
}

// The features of an editor, each by a request to the server.
const definition = async (document, position) => {
  const found = await client.ask("textDocument/definition", at(document, position));
  return found && new vscode.Location(vscode.Uri.parse(found.uri), range(found.range));
};
const references = async (document, position) => {
  const found = await client.ask("textDocument/references", at(document, position));
  return found.map((it) => new vscode.Location(vscode.Uri.parse(it.uri), range(it.range)));
};
const hover = async (document, position) => {
  const found = await client.ask("textDocument/hover", at(document, position));
  return found && new vscode.Hover(found.contents.value.split("\n"));
};
const complete = async (document, position) =>
  (await client.ask("textDocument/completion", at(document, position))).map(completion);
const symbols = async (document) => (await client.ask("textDocument/documentSymbol", about(document))).map(symbol);
const foldings = async (document) => {
  const kinds = { comment: vscode.FoldingRangeKind.Comment, region: vscode.FoldingRangeKind.Region };
  const found = await client.ask("textDocument/foldingRange", about(document));
  return found.map((it) => new vscode.FoldingRange(it.startLine, it.endLine, kinds[it.kind]));
};
const prepareRename = async (document, position) => {
  const found = await client.ask("textDocument/prepareRename", at(document, position));
  if (!found) throw new Error("only declared names of a readable text are renamed");
  return range(found);
};
const rename = async (document, position, newName) =>
  changes(await client.ask("textDocument/rename", { ...at(document, position), newName }));
const format = async (document) => {
  const found = await client.ask("textDocument/formatting", about(document));
  return (found || []).map((it) => vscode.TextEdit.replace(range(it.range), it.newText));
};
const fixes = async (document, chosen) => {
  const here = (sent.get(document.uri.toString()) || []).filter((it) => chosen.intersection(range(it.range)));
  const params = { ...about(document), range: plain(chosen), context: { diagnostics: here } };
  return (await client.ask("textDocument/codeAction", params)).map((it) => {
    const made = new vscode.CodeAction(it.title, vscode.CodeActionKind.QuickFix);
    made.edit = changes(it.edit);
    made.diagnostics = it.diagnostics.map(diagnostic);
    return made;
  });
};

function opened(document) {
  if (!client || !isDesign(document)) return;
  const text = { ...about(document).textDocument, languageId: "aadl", version: document.version };
  client.notify("textDocument/didOpen", { textDocument: { ...text, text: document.getText() } });
}

function changed(event) {
  if (!client || !isDesign(event.document)) return;
  const text = { uri: event.document.uri.toString(), version: event.document.version };
  client.notify("textDocument/didChange", { textDocument: text, contentChanges: [{ text: event.document.getText() }] });
}

function closed(document) {
  if (client && isDesign(document)) client.notify("textDocument/didClose", about(document));
}

async function start() {
  const command = vscode.workspace.getConfiguration("pals").get("server");
  const made = new Client(command, notified, (why) => {
    if (client === made) vscode.window.showErrorMessage(`The language server of pals has ended: ${why}`);
  });
  client = made;
  await client.ask("initialize", { capabilities: {}, processId: process.pid, rootUri: null });
  client.notify("initialized", {});
  vscode.workspace.textDocuments.forEach(opened);
}

async function stop() {
  const old = client;
  client = null;
  if (old) await old.stop();
}

async function restart() {
  await stop();
  sent.clear();
  diagnostics.clear();
  await start();
}

// Runs `check` on the design of the editor as a task, whose output is in a terminal and among the problems.
function check() {
  const editor = vscode.window.activeTextEditor;
  if (!editor || !isDesign(editor.document)) return undefined;
  const program = vscode.workspace.getConfiguration("pals").get("server")[0];
  const run = new vscode.ProcessExecution(program, ["check", editor.document.uri.fsPath]);
  const task = new vscode.Task({ type: "process" }, vscode.TaskScope.Workspace, "check", "pals", run, "$pals");
  return vscode.tasks.executeTask(task);
}

async function activate(context) {
  const { languages, workspace, commands } = vscode;
  diagnostics = languages.createDiagnosticCollection("pals");
  context.subscriptions.push(
    diagnostics,
    workspace.onDidOpenTextDocument(opened),
    workspace.onDidChangeTextDocument(changed),
    workspace.onDidCloseTextDocument(closed),
    commands.registerCommand("pals.restart", restart),
    commands.registerCommand("pals.check", check),
    languages.registerDefinitionProvider(DESIGNS, { provideDefinition: definition }),
    languages.registerReferenceProvider(DESIGNS, { provideReferences: references }),
    languages.registerHoverProvider(DESIGNS, { provideHover: hover }),
    languages.registerCompletionItemProvider(DESIGNS, { provideCompletionItems: complete }, ".", '"'),
    languages.registerDocumentSymbolProvider(DESIGNS, { provideDocumentSymbols: symbols }),
    languages.registerFoldingRangeProvider(DESIGNS, { provideFoldingRanges: foldings }),
    languages.registerRenameProvider(DESIGNS, { prepareRename, provideRenameEdits: rename }),
    languages.registerDocumentFormattingEditProvider(DESIGNS, { provideDocumentFormattingEdits: format }),
    languages.registerCodeActionsProvider(DESIGNS, { provideCodeActions: fixes }),
  );
  await start();
}

module.exports = { activate, deactivate: stop };

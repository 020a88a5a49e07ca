// Starts isle-lsp for files of ISLE.
const { workspace } = require("vscode");
const { LanguageClient } = require("vscode-languageclient/node");

let client;

function activate() {
  const command = workspace.getConfiguration("isle").get("server");
  const files = workspace.createFileSystemWatcher("**/{*.isle,isle.toml}");
  client = new LanguageClient(
    "isle",
    "isle-lsp",
    { command },
    { documentSelector: [{ language: "isle" }], synchronize: { fileEvents: files } },
  );
  return client.start();
}

function deactivate() {
  return client && client.stop();
}

module.exports = { activate, deactivate };

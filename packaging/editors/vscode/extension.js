// Starts the language server of the Core War kit.
const vscode = require("vscode");
const { LanguageClient } = require("vscode-languageclient/node");

let client;

exports.activate = () => {
  const [command, ...args] = vscode.workspace.getConfiguration("redcode").get("server");
  client = new LanguageClient("redcode", "Redcode", { command, args }, { documentSelector: [{ language: "redcode" }] });
  return client.start();
};

exports.deactivate = () => client?.stop();

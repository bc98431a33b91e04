// Starts `ask serve` for files of dcvalid.
const vscode = require("vscode");
const {LanguageClient, TransportKind} = require("vscode-languageclient/node");
let client;
exports.activate = () => {
  const settings = vscode.workspace.getConfiguration("dcvalid");
  const program = settings.get("program");
  client = new LanguageClient("dcvalid", "dcvalid", {command: settings.get("ask"), args: ["serve"], transport: TransportKind.stdio},
    {documentSelector: [{language: "dcvalid"}], initializationOptions: program ? {program} : {}});
  return client.start();
};
exports.deactivate = () => client && client.stop();

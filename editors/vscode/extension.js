// Starts ctd-language-server for programs of checktestdata, and has it check their data.
'use strict';

const vscode = require('vscode');

const MISSING = 'checktestdata: vscode-languageclient is missing, so only colours are shown; run "npm install" in the folder of this extension';
let client;

/** Starts the server; without the library of clients says that it is missing. */
function activate(context) {
    let library;
    try {
        library = require('vscode-languageclient/node');
    } catch {
        vscode.window.showWarningMessage(MISSING);
        return undefined;
    }
    const settings = vscode.workspace.getConfiguration('checktestdata');
    const options = {
        documentSelector: [{ language: 'checktestdata' }],
        initializationOptions: { presets: settings.get('presets') },
        synchronize: { configurationSection: 'checktestdata' },
    };
    client = new library.LanguageClient('checktestdata', 'checktestdata', { command: settings.get('server') }, options);
    context.subscriptions.push(vscode.commands.registerCommand('checktestdata.checkData', checkData));
    return client.start();
}

/** Has the data beside the program in the editor checked. */
function checkData() {
    const editor = vscode.window.activeTextEditor;
    const program = client.code2ProtocolConverter.asUri(editor.document.uri);
    return editor.document.save().then(() => client.sendRequest('workspace/executeCommand', { command: 'ctd.checkData', arguments: [program] }));
}

function deactivate() {
    return client && client.stop();
}

module.exports = { activate, deactivate };

// rem: moves the selected statements into a function of their own, in VS Code. It depends on nothing.
'use strict';

const { spawnSync } = require('child_process');
const fs = require('fs');
const path = require('path');

const SENTENCES = [path.join(__dirname, 'sentences.txt'), path.join(__dirname, '..', 'sentences.txt')];

/** The kept lines: words, how many numbers are the place, and the sentence. */
function kept() {
  const file = SENTENCES.find((name) => fs.existsSync(name));
  return fs.readFileSync(file, 'utf8').split('\n').filter((line) => line).map((line) => line.split('\t'));
}

/** The sentence for a line of the program, by the longest that begins with its words, and the byte where it shows. */
function said(line) {
  const all = line.trim().replace(/^error: /, '').split(/\s+/);
  const numbers = all.filter((word) => /^\d+$/.test(word));
  const words = all.filter((word) => !/^\d+$/.test(word)).join(' ') + ' ';
  let found = ['', '0', line.trim()];
  for (const one of kept()) {
    if (words.startsWith(one[0] + ' ') && one[0].length > found[0].length) {
      found = one;
    }
  }
  return { sentence: found[2], place: found[1] !== '0' && numbers.length ? Number(numbers[0]) : null };
}

/** The number of bytes in front of a character. */
function bytes(text, offset) {
  return Buffer.byteLength(text.slice(0, offset), 'utf8');
}

/** The character behind so many bytes. */
function character(text, count) {
  return Buffer.from(text, 'utf8').subarray(0, count).toString('utf8').length;
}

/** What becomes of a text: the changed one with the place of the call, or a sentence with its place. */
function extract(program, text, begin, end, name, byReference) {
  const words = ['extract', name, String(bytes(text, begin)), String(bytes(text, end))];
  const got = spawnSync(program, byReference ? words.concat('ref') : words, { input: text, maxBuffer: 1 << 26 });
  if (got.error) {
    return { sentence: `${program} could not be run: ${got.error.message}`, place: null };
  }
  if (got.status !== 0) {
    const { sentence, place } = said(got.stderr.toString('utf8'));
    return { sentence, place: place === null ? null : character(text, place) };
  }
  const ends = text.includes('\r\n') ? '\r\n' : '\n';
  const changed = got.stdout.toString('utf8').replace(/\r?\n/g, ends);
  return { changed, call: Math.max(0, changed.search(new RegExp(`(?<![\\p{L}\\p{N}_])${name}\\(`, 'u'))) };
}

async function command(vscode, byReference) {
  const editor = vscode.window.activeTextEditor;
  const name = editor && (await vscode.window.showInputBox({ prompt: 'Name of the new function' }));
  if (!name) {
    return;
  }
  const { document, selection } = editor;
  const text = document.getText();
  const program = vscode.workspace.getConfiguration('rem').get('program', 'rem');
  const [begin, end] = [document.offsetAt(selection.start), document.offsetAt(selection.end)];
  const result = extract(program, text, begin, end, name, byReference);
  if (result.changed !== undefined) {
    const whole = new vscode.Range(document.positionAt(0), document.positionAt(text.length));
    await editor.edit((edit) => edit.replace(whole, result.changed));
    const call = editor.document.positionAt(result.call);
    editor.selection = new vscode.Selection(call, call);
    editor.revealRange(new vscode.Range(call, call));
    return;
  }
  let where = '';
  if (result.place !== null) {
    const at = document.positionAt(result.place);
    editor.selection = new vscode.Selection(at, at);
    where = ` (line ${at.line + 1}, column ${at.character + 1})`;
  }
  vscode.window.showWarningMessage(`rem: ${result.sentence}${where}`);
}

function activate(context) {
  const vscode = require('vscode');
  const register = (name, byReference) =>
    context.subscriptions.push(vscode.commands.registerCommand(name, () => command(vscode, byReference)));
  register('rem.extract', false);
  register('rem.extractByReference', true);
}

module.exports = { activate, extract, said };

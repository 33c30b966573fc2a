#!/usr/bin/env node
// A warm eslint. A request has eslint's own words.
//
// usage: eslint_worker.js [--answers=3] --persistent_worker | eslint_worker.js WORD.. @FILE.. | eslint_worker.js --self-test
//
// With --soft in front of a request, findings (exit code 1) answer 0: the report is the output. ESLINT names eslint's folder.
'use strict';
const fs = require('fs');
const path = require('path');
const { createRequire } = require('module');
const { serve, ownWords } = require('./json_worker.js');
const home = process.env.ESLINT || '/usr/share/nodejs/eslint';
if (!process.env.NODE_PATH) {  // eslint's modules are next to it; a Node that isn't Debian's doesn't look there
  process.env.NODE_PATH = path.dirname(home);
  require('module').Module._initPaths();
}
const cli = createRequire(path.join(home, 'lib/'))(path.join(home, 'lib/cli.js'));

/** The path behind -o, or undefined. */
const outputOf = words => words[words.findIndex(it => /^(-o|--output-file)$/.test(it)) + 1 || words.length];

/** A text in which the room's path is the project's: eslint writes whole paths. */
const inProject = (text, room) => text.replaceAll(room, room.replace(/\/\.(worker_rooms|lenthuvi)\/.*$/, ''));

/** Carries out a request. Returns the exit code. */
async function lint(request) {
  const soft = request.words[0] === '--soft', before = process.cwd(), out = outputOf(request.words);
  if (path.resolve(request.folder) !== before) process.chdir(request.folder);  // of a boxed line, which has one request at a time
  try {
    const code = await cli.execute(['node', 'eslint', ...request.words.slice(soft ? 1 : 0)]);
    request.text = inProject(request.text || '', process.cwd());
    if (out) {  // without findings it makes no file
      fs.mkdirSync(path.dirname(out), { recursive: true });
      fs.writeFileSync(out, inProject(fs.existsSync(out) ? fs.readFileSync(out, 'utf8') : '', process.cwd()));
    }
    return soft && code === 1 ? 0 : code;
  } finally {
    process.chdir(before);
  }
}

async function selfTest() {
  const folder = fs.mkdtempSync(require('os').tmpdir() + '/eslint_worker');
  fs.writeFileSync(`${folder}/a.js`, 'var a = 1; if (a == 2) {}\n');
  process.chdir(folder);
  const words = ['--no-eslintrc', '--rule', 'eqeqeq: 2', '-f', 'json', '-o', 'out.json', 'a.js'];
  const codes = [await lint({ words, folder: '.' }), await lint({ words: ['--soft', ...words], folder: '.' })];
  if (codes.join() !== '1,0') throw new Error(`exit codes ${codes}`);
  if (!fs.readFileSync('out.json', 'utf8').includes('eqeqeq')) throw new Error('the report is wrong');
  process.chdir('/');
  fs.rmSync(folder, { recursive: true });
  console.log('as expected');
}

const words = process.argv.slice(2).filter(it => it !== '--answers=3');
if (words.includes('--self-test')) selfTest();
else if (words.includes('--persistent_worker')) serve(lint);
else lint({ words: ownWords(words), folder: '.' }).then(code => { process.exitCode = code; });

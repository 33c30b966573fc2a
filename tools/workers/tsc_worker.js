#!/usr/bin/env node
// A warm tsc. A source file is parsed once for each digest, and the libraries of the host once. Declarations that aren't the project's
// own are checked once, as long as no source can change what they mean.
//
// usage: tsc_worker.js [--answers=3] --persistent_worker | tsc_worker.js WORD.. @FILE.. | tsc_worker.js --self-test
//
// A request has tsc's own words. With --soft in front, errors of types answer 0 if files were made. TSC names typescript.js.
'use strict';
const fs = require('fs');
const path = require('path');
const { serve, ownWords } = require('./json_worker.js');
const ts = require(process.env.TSC || '/usr/share/nodejs/typescript/lib/typescript.js');
const kept = new Map();  // path and form -> [digest, file, name]
const MOST_KEPT = 4000;
const sound = new Map();  // options and paths -> the files of others in which tsc found nothing wrong
const MOST_SOUND = 100;

/** A host whose folder is the request's, and whose source files are kept. */
function hostOf(options, request) {
  const folder = path.resolve(request.folder), host = ts.createCompilerHost(options), read = host.getSourceFile.bind(host);
  host.getCurrentDirectory = () => folder;
  host.getSourceFile = (name, form, onError, fresh) => {
    const whole = path.resolve(folder, name), inside = path.relative(folder, whole);
    const digest = inside.startsWith('..') ? 'host' : request.digests.get(inside);
    const key = `${whole.replace(folder, '')}\0${JSON.stringify(form)}`, old = kept.get(key);
    if (digest && old && old[0] === digest && old[2] === name) return old[1];
    const file = read(whole, form, onError, fresh);
    if (file) file.fileName = name;
    if (digest && file) {
      if (kept.size >= MOST_KEPT) kept.clear();
      kept.set(key, [digest, file, name]);
    }
    return file;
  };
  return host;
}

/** Whether a file changes only what files that import it mean: it is a module, and adds to no other module and to no global name. */
const isApart = file => !file.isDeclarationFile && /\.[cm]?tsx?$/.test(file.fileName) && ts.isExternalModule(file) &&
  !file.moduleAugmentations?.length;

/** Returns the files of a program that aren't the project's own, or nothing if an own one could change what they mean. */
function othersIn(program, folder) {
  const isOwn = it => !/^\.\.|(^|\/)node_modules\//.test(path.relative(folder, path.resolve(folder, it.fileName)));
  const files = program.getSourceFiles();
  return files.every(it => !isOwn(it) || isApart(it)) ? files.filter(it => !isOwn(it)) : undefined;
}

/** Emits a program's files, and returns what tsc finds wrong, and whether it emitted nothing. */
function examine(program, errors, write) {
  const made = program.getCompilerOptions().noEmit ? { diagnostics: [], emitSkipped: false } : program.emit(undefined, write);
  return [ts.sortAndDeduplicateDiagnostics([...errors, ...ts.getPreEmitDiagnostics(program), ...made.diagnostics]), made.emitSkipped];
}

/**
 * Examines the program of these sources. The files of others are skipped if an earlier program with the same ones had nothing wrong in
 * them. If something is wrong, or if declarations are made, nothing is skipped: both can list types in the order in which tsc met them.
 */
function examineOnce(asked, host, write) {
  const whole = ts.createProgram(asked.fileNames, asked.options, host), others = othersIn(whole, host.getCurrentDirectory());
  const key = JSON.stringify([asked.options, (others || []).map(it => it.fileName)]), old = sound.get(key);
  if (others && old && others.every((it, at) => it === old[at]) && !ts.getEmitDeclarations(asked.options)) {
    const found = examine(ts.createProgram(asked.fileNames, { ...asked.options, skipLibCheck: true }, host, whole), asked.errors, write);
    if (found[0].length === 0) return found;
  }
  const found = examine(whole, asked.errors, write);
  if (sound.size >= MOST_SOUND) sound.clear();
  if (others && !found[0].some(it => others.includes(it.file))) sound.set(key, others);
  return found;
}

/** Compiles as tsc does. Returns the exit code. */
function compile(request) {
  const soft = request.words[0] === '--soft';
  const asked = ts.parseCommandLine(soft ? request.words.slice(1) : request.words);
  const host = hostOf(asked.options, request), folder = host.getCurrentDirectory();
  const write = (name, text, mark) => {
    const whole = path.resolve(folder, name);
    fs.mkdirSync(path.dirname(whole), { recursive: true });
    ts.sys.writeFile(whole, text, mark);
  };
  const [found, skipped] = examineOnce(asked, host, write);
  const form = { getCanonicalFileName: it => it, getCurrentDirectory: () => folder, getNewLine: () => '\n' };
  process.stdout.write(ts.formatDiagnostics(found, form));
  return found.length === 0 || soft && !skipped ? 0 : skipped ? 1 : 2;
}

function selfTest() {
  const folder = fs.mkdtempSync(require('os').tmpdir() + '/tsc_worker'), request = { words: ['a.ts'], digests: new Map(), folder: '.' };
  process.chdir(folder);
  const codes = [
    'export const a: number = "x";', 'export const a: number = 1;', 'export const a: string = 2;',
    'export {}; declare global { interface Array<T> { length: string } }',  // wrong because of what a library says
    'export const a: number = 3;', 'declare const length: string; interface Array<T> { length: string }', 'export const a: number = 4;',
  ].map((text, at) => {
    fs.writeFileSync('a.ts', text);
    request.digests.set('a.ts', `${at}`);
    return compile(request);
  });
  if (codes.join() !== '2,0,2,2,0,2,0') throw new Error(`exit codes ${codes}`);
  if (!fs.readFileSync('a.js', 'utf8').includes('exports.a = 4')) throw new Error('a.js is wrong');
  process.chdir('/');
  fs.rmSync(folder, { recursive: true });
  console.log('as expected');
}

const words = process.argv.slice(2).filter(it => it !== '--answers=3');
if (words.includes('--self-test')) selfTest();
else if (words.includes('--persistent_worker')) serve(compile);
else process.exitCode = compile({ words: ownWords(words), digests: new Map(), folder: '.' });

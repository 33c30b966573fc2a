// Helps a tool in Node be a worker in JSON: several requests at once, cancels, and an output that nothing else writes to.
'use strict';
const fs = require('fs');
const { AsyncLocalStorage } = require('async_hooks');
const { Writable } = require('stream');
const course = new AsyncLocalStorage();  // the request in whose course something is called
// Node can't move a descriptor. With --answers=3 `sh -c 'exec "$@" 3>&1 1>&2' sh` stands in front, so what writes to 1 harms no answer.
const ANSWERS = process.argv.includes('--answers=3') ? 3 : 1;
const realExit = process.exit.bind(process);

/** What process.exit throws in the course of a request. */
class Exit extends Error {
  constructor(code) {
    super(`exit ${code}`);
    this.code = Number(code ?? process.exitCode ?? 0);
  }
}

/** Writes bytes to a pipe, which may be one that doesn't wait. */
function writeAll(fd, bytes) {
  for (let at = 0; at < bytes.length;) {
    try {
      at += fs.writeSync(fd, bytes, at);
    } catch (fault) {
      if (fault.code !== 'EAGAIN') throw fault;
      Atomics.wait(new Int32Array(new SharedArrayBuffer(4)), 0, 0, 2);
    }
  }
}

/** Makes what is printed the text of its request, or sends it to standard error; and makes an exit end its request. */
function guard() {
  const take = (chunk, encoding, done) => {
    const request = course.getStore();
    const told = typeof encoding === 'function' ? encoding : done;
    if (request) request.text += chunk.toString();
    else writeAll(2, Buffer.from(chunk));
    if (told) process.nextTick(told);
    return true;
  };
  for (const name of ['stdout', 'stderr']) {
    Object.defineProperty(process, name, { value: Object.assign(new Writable({ write: take }), { write: take, isTTY: false, fd: 2 }) });
  }
  global.console = new console.Console(process.stdout, process.stderr);
  process.exit = code => {
    if (course.getStore()) throw new Exit(code);
    realExit(code);
  };
}

/** Calls work(request) for each request: {words, digests, folder, text, cancelled}. It returns or promises the exit code. */
function serve(work) {
  guard();
  const open = new Map();
  const answer = (request, code) => {
    if (!open.delete(request.number)) return;
    const held = request.cancelled ? { wasCancelled: true } : { exitCode: code | 0, output: request.text };
    writeAll(ANSWERS, Buffer.from(JSON.stringify({ ...held, requestId: request.number }) + '\n'));
  };
  const failed = (request, fault) => {
    if (fault instanceof Exit) return answer(request, fault.code);
    request.text += `${fault?.stack || fault}\n`;
    answer(request, 1);
  };
  const stray = fault => (course.getStore() ? [course.getStore()] : [...open.values()]).forEach(it => failed(it, fault));
  process.on('uncaughtException', stray).on('unhandledRejection', stray);
  const take = line => {
    const held = JSON.parse(line), number = held.requestId || 0;
    if (held.cancel) {
      if (open.has(number)) open.get(number).cancelled = true;
      return;
    }
    const digests = new Map((held.inputs || []).map(it => [it.path, it.digest]));
    const request = { words: held.arguments || [], digests, folder: held.sandboxDir || '.', number, text: '', cancelled: false };
    open.set(number, request);
    course.run(request, async () => {
      try {
        answer(request, await work(request));
      } catch (fault) {
        failed(request, fault);
      }
    });
  };
  const end = () => setInterval(() => open.size || realExit(0), 5);
  require('readline').createInterface({ input: process.stdin }).on('line', take).on('close', end);
}

/** The words of one request: a word @FILE stands for the lines of that file. */
const ownWords = words => words.flatMap(it => /^@./.test(it) ? fs.readFileSync(it.slice(1), 'utf8').split('\n').filter(Boolean) : [it]);

module.exports = { serve, ownWords, Exit };

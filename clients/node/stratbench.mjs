#!/usr/bin/env node
// The command `stratbench`, for systems that the program isn't compiled for. It works in a thread of its own, whose stack is large enough
// for the deepest strategies.

import { readFileSync } from 'node:fs';
import { isMainThread, parentPort, Worker, workerData } from 'node:worker_threads';
import { fileURLToPath } from 'node:url';
import { run } from './command.mjs';
import { load } from './sessions.mjs';
import { input, lines, put, read, reason, write } from './system.mjs';

const STACK_MB = 8;
const FILES = 3;
const words = () => JSON.parse(readFileSync(new URL('words.json', import.meta.url), 'utf8'));

const world = () => ({
  ...words(),
  engine: () => load(),
  read, write, reason, input, lines,
  out: bytes => put(1, bytes),
  err: bytes => put(2, bytes),
});

if (isMainThread) {
  const worker = new Worker(fileURLToPath(import.meta.url), { workerData: process.argv.slice(2), resourceLimits: { stackSizeMb: STACK_MB } });
  worker.on('message', status => { process.exitCode = status; });
  worker.on('error', fault => {
    if (fault.code === 'EPIPE') return;
    put(2, Buffer.from(`stratbench: ${fault.message}\n`));
    process.exitCode = FILES;
  });
} else {
  parentPort.postMessage(await run(workerData, world()));
}

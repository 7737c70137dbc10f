// Streams and files of the system, for the command.

import {
  closeSync, fchmodSync, fsyncSync, lstatSync, openSync, readSync, realpathSync, renameSync, rmSync, statSync, writeSync,
} from 'node:fs';

const LF = 10;
const PART = 1 << 16;
const INPUT = 0;
/** The most bytes of a file that is loaded, and of a line of a script that is a file. A device may give bytes without an end. */
const MOST = 100000000;

/** Writes all bytes to a stream or file. A pipe may take a part of them, or none for now. */
export function put(file, bytes) {
  for (let at = 0; at < bytes.length;) {
    try {
      at += writeSync(file, bytes, at);
    } catch (fault) {
      if (fault.code !== 'EAGAIN') throw fault;
      pause();
    }
  }
}

function pause() {
  Atomics.wait(new Int32Array(new SharedArrayBuffer(4)), 0, 0, 5);
}

/** The parts of a stream or file, as they come. */
function* parts(file) {
  for (;;) {
    const part = next(file, Buffer.alloc(PART));
    if (!part.length) return;
    yield part;
  }
}

/** Reads the next bytes of a stream or file, or none at its end. */
function next(file, room) {
  for (;;) {
    try {
      return room.subarray(0, readSync(file, room, 0, room.length, null));
    } catch (fault) {
      if (fault.code === 'EOF') return room.subarray(0, 0);
      if (fault.code !== 'EAGAIN') throw fault;
      pause();
    }
  }
}

/** All of standard input. */
export const input = () => Buffer.concat([...parts(INPUT)]);

/** The lines of standard input as they come, one or several, whole but for what follows the last line feed at the end. */
export function* lines() {
  let rest = [];
  for (const part of parts(INPUT)) {
    const end = part.lastIndexOf(LF) + 1;
    if (end) {
      yield Buffer.concat([...rest, part.subarray(0, end)]);
      rest = [];
    }
    rest.push(part.subarray(end));
  }
  const last = Buffer.concat(rest);
  if (last.length) yield last;
}

/** Reads a file. A script may have any length, but not each of its lines. */
export function read(file, isScript) {
  const opened = openSync(file, 'r');
  try {
    const found = [];
    let left = MOST;
    for (const part of parts(opened)) {
      const end = isScript ? part.lastIndexOf(LF) + 1 : 0;
      left = (end ? MOST : left) - (part.length - end);
      if (left < 0) throw new Error(`${isScript ? 'a line' : 'it'} has more than ${MOST} bytes`);
      found.push(part);
    }
    return Buffer.concat(found);
  } finally {
    closeSync(opened);
  }
}

/** Writes a file whole or not at all: beside its place, and then it is moved there. What is no file, or has other hard links, is left. */
export function write(file, bytes) {
  const there = statSync(file, { throwIfNoEntry: false });
  if (!there && lstatSync(file, { throwIfNoEntry: false })) throw new Error('a link to no file');
  if (there && !there.isFile()) throw new Error('no file');
  if (there && there.nlink > 1) throw new Error('a file with further hard links');
  const place = there ? realpathSync(file) : file;
  const beside = `${place}.${process.pid}.new`;
  const made = openSync(beside, 'wx');
  try {
    if (there) fchmodSync(made, there.mode);
    put(made, bytes);
    fsyncSync(made);
    closeSync(made);
    renameSync(beside, place);
  } catch (fault) {
    rmSync(beside, { force: true });
    throw fault;
  }
}

const TEXTS = {
  EACCES: 'Permission denied', EEXIST: 'File exists', EISDIR: 'Is a directory', ENOENT: 'No such file or directory', ENOSPC: 'No space left on device',
  ENOTDIR: 'Not a directory', EPERM: 'Operation not permitted', EROFS: 'Read-only file system',
};

/** Why a file couldn't be read or written, as the program says it. */
export function reason({ code, errno, message }) {
  return TEXTS[code] ? `${TEXTS[code]} (os error ${Math.abs(errno)})` : message;
}

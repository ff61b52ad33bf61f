/**
 * What the command reads and writes: files by their paths, standard input, and lines.
 * @module
 */
import { closeSync, openSync, readSync, writeSync } from "node:fs";
import { printable } from "./printing.js";

/** How many bytes a file may have, where no other limit is asked for. */
export const MOST = 16_777_216;

/** Why a file's bytes are not there, in the words of the tool, and the status for want of them. */
export class Unread extends Error {
  /** @param {string} sentence @param {number} status */
  constructor(sentence, status) {
    super(sentence);
    this.status = status;
  }
}

const pause = () => Atomics.wait(new Int32Array(new SharedArrayBuffer(4)), 0, 0, 1);

// Tries a call on a pipe again that has nothing for now.
function waiting(call) {
  for (;;) {
    try {
      return call();
    } catch (error) {
      if (error.code !== "EAGAIN") throw error;
      pause();
    }
  }
}

function opened(path) {
  try {
    return openSync(path);
  } catch (error) {
    throw new Unread(error.code === "ENOENT" ? "there is no such file" : "it can't be opened", 2);
  }
}

function wholeOf(file, most) {
  const parts = [];
  let size = 0;
  for (;;) {
    const part = Buffer.alloc(1 << 16);
    const count = waiting(() => readSync(file, part));
    if (!count) return Buffer.concat(parts);
    parts.push(part.subarray(0, count));
    size += count;
    if (size > most) throw new Unread("it has more bytes than the limit; --limit BYTES sets another", 2);
  }
}

/** The bytes of the file of a path, at most so many; `-` is standard input. Throws `Unread`. */
export function bytesOfPath(path, most) {
  const file = path === "-" ? 0 : opened(path);
  try {
    return wholeOf(file, most);
  } catch (error) {
    if (error instanceof Unread) throw error;
    if (error.code === "EISDIR") throw new Unread("it is a folder", 2);
    throw new Unread("a read failed", 3);
  } finally {
    if (path !== "-") closeSync(file);
  }
}

/** A sentence that names a file, and perhaps a line of it, from 1. */
export function sentenceOf(path, fault, number) {
  const name = path === "-" ? "standard input" : path;
  return printable(`weoldrin: ${name}${number === undefined ? "" : `:${number}`}: ${fault}`);
}

function written(file, text) {
  const bytes = Buffer.from(text);
  for (let at = 0; at < bytes.length; ) at += waiting(() => writeSync(file, bytes, at));
}

/** Writes to standard error, if someone takes it. */
export function tell(text) {
  try {
    written(2, text);
  } catch {
    // There is nowhere else to say so.
  }
}

/** Writes to standard output, and says whether it could be written. A reader that has gone is no fault. */
export function print(text) {
  try {
    written(1, text);
  } catch (error) {
    if (error.code === "EPIPE") return true;
    tell("weoldrin: standard output could not be written\n");
    return false;
  }
  return true;
}

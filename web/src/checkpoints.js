/**
 * A checkpoint of a registry, in the page's thread: what it says, and whether a key has signed it that an operator log
 * lets sign. The library says so; what stands behind a no is looked up for whoever reads it.
 * @module
 */
import { BadArgument, UnknownAlgorithm, checkpoints } from "../../bindings/js/src/index.js";

// No checkpoint is as long as this.
export const LONGEST = 65_536;

/** Whether the bytes of a file are JSON: of a log's file the first sign is a digit, or begins a comment. */
export const isJson = (bytes) => bytes.find((it) => ![9, 10, 13, 32].includes(it)) === 0x7b;

/** A checkpoint as a registry publishes it, with its signature or without. Throws `BadArgument`. */
export function publishedOf(text) {
  let whole;
  try {
    whole = JSON.parse(text);
  } catch {
    // The package's own reader says what is wrong.
  }
  if (Object.hasOwn(whole ?? {}, "contents")) return { isSigned: true, ...checkpoints.parseSigned(text) };
  const read = Object.hasOwn(whole ?? {}, "timestamp") ? checkpoints.parseTimestamped : checkpoints.parse;
  return { isSigned: false, checkpoint: read(text) };
}

/** Why the library says no, as the log tells it. */
function reasonOf(log, keyId) {
  const key = log.publicKey(keyId);
  if (key === null) return { state: "no-key" };
  if (!log.holds(keyId, "commit")) return { state: "may-not", key, permissions: log.permissions(keyId) };
  return { state: "not-belonging", key };
}

/** Who signed a checkpoint, by an operator log, or why it is signed by no one who may. */
export function signerOf({ isSigned, checkpoint, keyId, signature }, log) {
  if (!isSigned) return { state: "unsigned" };
  if (log === null) return { state: "no-log", keyId };
  try {
    const isBy = log.verifyCheckpoint(checkpoint, keyId, signature);
    return isBy ? { state: "signed", keyId, key: log.publicKey(keyId) } : { keyId, ...reasonOf(log, keyId) };
  } catch (error) {
    if (error instanceof BadArgument) return { state: "unreadable", keyId };
    if (error instanceof UnknownAlgorithm) return { state: "algorithm", keyId, key: log.publicKey(keyId) };
    throw error;
  }
}

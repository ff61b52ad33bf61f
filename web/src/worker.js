/**
 * The page's thread: it has the library and the logs, and answers one question after the other. So the page never
 * waits for a log, and nothing of a log's text is read as more than text there.
 * @module
 */
import { Library, NoLibrary, OutOfMemory, UnknownAlgorithm, WeoldrinError } from "../../bindings/js/src/index.js";
import { textOf } from "../../bindings/js/src/bytes.js";
import { faultOfRead } from "../../bindings/js/src/auditing.js";
import { Fault } from "../../bindings/js/src/faults.js";
import { Told } from "./asking.js";
import { keysOf, namespacesOf, permissionsOf, recordsOf, summaryOf, told, treeOf } from "./answers.js";
import { LONGEST, isJson, publishedOf, signerOf } from "./checkpoints.js";
import { MOST } from "./files.js";
import { hasWebCrypto, judge } from "./judging.js";
import { verifyPackage } from "./verifying.js";

/** What is wrong with a file, and no fault of the package's. */
class Wrong extends Error {
  constructor(name, beside = {}) {
    super(name);
    Object.assign(this, { name, beside });
  }
}

const logs = new Map();
const published = new Map();
let haveModule;
// What is asked before the page has the library's module waits for it.
const module = new Promise((resolve) => (haveModule = resolve));
let library;
let asking;

async function theLibrary() {
  // One that trapped is given up, and another one takes its place. Its logs are closed.
  const { source, why } = await module;
  if (!source) throw new NoLibrary(`NoLibrary: the library's module can't be had: ${why}`);
  if (!library || library.isGivenUp) library = await Library.load({ source });
  return library;
}

async function bytesOf({ file, bytes }) {
  const size = file ? file.size : bytes.byteLength;
  if (size > MOST) throw new Wrong("TooLarge", { size, most: MOST });
  try {
    return new Uint8Array(file ? await file.arrayBuffer() : bytes);
  } catch (error) {
    throw file ? new Wrong("Unreadable", { isFolder: file.type === "", why: faultOfRead(error).message }) : error;
  }
}

function logAt(number) {
  const found = logs.get(number);
  if (!found) throw new Wrong("NoLog");
  return found;
}

/** What a log's walk found, which is made once. */
function summaryAt(number) {
  const found = logAt(number);
  return (found.summary ??= summaryOf(found.log));
}

function shownRefusal({ envelope, ...others }, kind) {
  return { ...others, record: told(kind, envelope, null, others.place) };
}

/** A checkpoint's file is read. Who signed it is asked by itself, as often as there is another log. */
function readCheckpoint(number, bytes) {
  if (bytes.length > LONGEST) throw new Wrong("LongCheckpoint", { size: bytes.length, most: LONGEST });
  let text;
  try {
    text = textOf(bytes);
  } catch {
    throw new Wrong("NotJson");
  }
  const found = publishedOf(text);
  published.set(number, found);
  return { kind: "checkpoint", text, ...found };
}

/**
 * A file is judged: a log's, or a checkpoint's. What the answer says of a log is said of the whole file, behind its
 * last record.
 */
async function judged({ number, kind, toy, ...source }, heard) {
  const words = { kind, toy, library: await theLibrary() };
  const bytes = await bytesOf(source);
  if (isJson(bytes)) return readCheckpoint(number, bytes);
  const { log, refusal, ...found } = await judge(bytes, words, heard);
  logs.get(number)?.log.close();
  logs.set(number, { log });
  const beside = { permissions: permissionsOf(log.kind), byLibrary: !hasWebCrypto() };
  return { ...found, ...beside, head: log.head(), refusal: refusal && shownRefusal(refusal, log.kind) };
}

/**
 * A package of a registry is verified: `told` gets each step. The log that was fetched is one of those that are looked
 * at once the last step holds. Whoever asks for another one gives the one before up.
 */
async function verified({ number, ...words }, _, told) {
  asking?.abort();
  const { signal } = (asking = new AbortController());
  const beside = { library: await theLibrary(), signal, tell: told };
  const { found, log } = await verifyPackage(words, beside);
  if (found.state === "absent") return found;
  logs.set(number, { log });
  const count = log.length;
  const judgedAs = { kind: log.kind, taken: count, count, toys: 0, refusal: null, head: log.head() };
  return { ...found, log: { ...judgedAs, permissions: permissionsOf(log.kind), byLibrary: !hasWebCrypto() } };
}

function releasesAt(number, from, count) {
  const found = logAt(number);
  found.releases ??= [...found.log.releases()];
  return { total: found.releases.length, rows: found.releases.slice(from, from + count) };
}

function compared({ left, right, before, count }) {
  const [one, other] = [logAt(left).log, logAt(right).log];
  const found = one.compare(other);
  const isCollision = found.relation === "collision";
  const place = found.relation === "same" ? one.length : found.left;
  return {
    ...found,
    lengths: [one.length, other.length],
    common: isCollision ? [] : recordsOf(one, Math.max(0, place - before), Math.min(before, place)),
    sides: [recordsOf(one, place, count), recordsOf(other, isCollision ? found.right : place, count)],
  };
}

const PROOFS = {
  inclusion: ({ logId, recordId, place, logLength, logRoot, proof }) =>
    library.verifyInclusion(logId, recordId, BigInt(place), logLength, logRoot, proof),
  consistency: (it) => library.verifyConsistency(it.old.logLength, it.old.logRoot, it.logLength, it.logRoot, it.proof),
  head: (it) => library.verifyPresence(it.logId, it.recordId, it.mapRoot, it.proof),
  absence: (it) => library.verifyAbsence(it.logId, it.mapRoot, it.proof),
};

async function proved({ what, text, oldText, operators, logId, name, ...words }) {
  await theLibrary();
  const found = publishedOf(text);
  const old = what === "consistency" ? publishedOf(oldText).checkpoint : null;
  const isOfLog = what !== "none" && what !== "consistency";
  const id = isOfLog ? logId || library.logId(name === null ? "operator" : "package", name ?? "") : null;
  const holds = what === "none" ? null : PROOFS[what]({ ...found.checkpoint, ...words, logId: id, old });
  const signer = signerOf(found, operators === null ? null : logAt(operators).log);
  return { holds, logId: id, checkpoint: found.checkpoint, signer };
}

const ANSWERS = {
  begin: async (it) => {
    haveModule(it);
    return { version: (await theLibrary()).version() };
  },
  judge: judged,
  verify: verified,
  records: ({ number, from, count }) => recordsOf(logAt(number).log, from, count),
  summary: async ({ number }) => {
    const { ids, names, signers, times, columns } = await summaryAt(number);
    const span = [times[0] ?? 0n, times.at(-1) ?? 0n];
    return { keys: ids.length, names: names.length, signers: signers.size, columns, span };
  },
  keys: async ({ number, from, count }) => {
    const summary = await summaryAt(number);
    return { total: summary.ids.length, rows: keysOf(logAt(number).log, summary, from, count) };
  },
  tree: async ({ number, permission, most }) => treeOf(logAt(number).log, await summaryAt(number), permission, most),
  releases: ({ number, from, count }) => releasesAt(number, from, count),
  latest: ({ number, requirement }) => logAt(number).log.latest(requirement),
  namespaces: async ({ number, from, count }) => {
    const summary = await summaryAt(number);
    return { total: summary.names.length, rows: namespacesOf(logAt(number).log, summary, from, count) };
  },
  compare: compared,
  prove: proved,
  signer: ({ number, operators }) => signerOf(published.get(number), operators === null ? null : logAt(operators).log),
  forget: ({ number }) => {
    published.delete(number);
    logs.get(number)?.log.close();
    logs.delete(number);
  },
};

/** What goes to the page of what was thrown. */
function faultOf(error) {
  if (error instanceof Told) return { name: error.name, sentence: error.message, isTold: true };
  if (error instanceof Wrong) return { name: error.name, ...error.beside };
  if (error instanceof Fault) return { ...error, name: error.name, sentence: error.message };
  if (error instanceof OutOfMemory || error instanceof RangeError) return { name: "OutOfMemory" };
  if (error instanceof UnknownAlgorithm) return { name: error.name, sentence: error.sentence };
  if (error instanceof WeoldrinError) return { name: error.name, sentence: error.sentence };
  return { name: "Broken", sentence: String(error) };
}

globalThis.onmessage = async ({ data: { at, ask, ...words } }) => {
  const heard = (done, total) => globalThis.postMessage({ at, done, total });
  const told = (step) => globalThis.postMessage({ at, step });
  try {
    globalThis.postMessage({ at, found: await ANSWERS[ask](words, heard, told) });
  } catch (error) {
    globalThis.postMessage({ at, fault: faultOf(error) });
  }
};

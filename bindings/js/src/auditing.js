/**
 * Audits logs that lie in files: an envelope a line, in hex, as the tool reads them.
 * @module
 */
import { bytesOf } from "./bytes.js";
import { NoEnvelope, OutOfMemory, Refused, Trapped, UnknownAlgorithm } from "./errors.js";
import { Empty, Fault, Missing, Unreadable } from "./faults.js";
import { envelopesOf } from "./lines.js";
import { logOf } from "./logs.js";
import { printable } from "./printing.js";
import { Kind, kindOf } from "./values.js";

/** The first record of a log that is refused: its place, from 0, and why. */
export class Refusal {
  /** @param {number} place @param {string} name @param {string} sentence */
  constructor(place, name, sentence) {
    Object.assign(this, { place, name, sentence });
    Object.freeze(this);
  }

  toString() {
    return printable(`refused ${this.place} ${this.name}: ${this.sentence}`);
  }
}

/** What an audit found in a file. */
export class Verdict {
  /**
   * @param {{
   *   path: string, records?: number, head?: string | null, refusal?: Refusal | null, fault?: Fault | null,
   * }} found
   */
  constructor({ path, records = 0, head = null, refusal = null, fault = null }) {
    Object.assign(this, { path, records, head, refusal, fault });
    Object.freeze(this);
  }

  /** Whether the whole log was read and each record of it is lawful. */
  get accepted() {
    return this.refusal === null && this.fault === null;
  }

  /** A line, as it is printed, whatever stands in the path and in the record that is refused. */
  toString() {
    const told = this.fault ?? this.refusal ?? `ok ${this.records} ${this.head ?? "none"}`;
    return `${printable(this.path)}: ${told}`;
  }
}

/**
 * Appends envelopes until one is refused: how many were taken, and the refusal, whose place is counted from the first
 * of them, or null.
 *
 * Without `verify` the library verifies, and a record whose key is of another algorithm than it knows is refused as
 * `UnknownAlgorithm`.
 */
export async function appendAll(log, envelopes, verify) {
  let taken = 0;
  for (const envelope of envelopes) {
    try {
      if (verify) await log.append(envelope, verify);
      else log.appendSigned(envelope);
    } catch (error) {
      const isRefused = [NoEnvelope, Refused, UnknownAlgorithm].some((it) => error instanceof it);
      if (!isRefused) throw error;
      return { taken, refusal: new Refusal(taken, error.name, error.sentence) };
    }
    taken++;
  }
  return { taken, refusal: null };
}

const OTHERS = {
  [Kind.PACKAGE]: [Kind.OPERATOR, "an operator log"],
  [Kind.OPERATOR]: [Kind.PACKAGE, "a package's log"],
};

/**
 * The refusal of a record of a file. Where that is likely no fault of a publisher's, its sentence ends with what it is.
 */
async function withCause(refusal, kind, envelope, library) {
  let cause = "";
  if (!envelope.length) cause = "the line is blank: only the last line of a file may be";
  else if (refusal.place === 0) {
    const [other, name] = OTHERS[kind];
    const log = await logOf(other, { library });
    if ((await appendAll(log, [envelope])).refusal === null) cause = `it is a record of ${name}: is the kind right?`;
    log.close();
  }
  return cause ? new Refusal(refusal.place, refusal.name, `${refusal.sentence}; ${cause}`) : refusal;
}

async function judged(path, envelopes, kind, verify, options) {
  const log = await logOf(kind, options);
  try {
    const { taken, refusal } = await appendAll(log, envelopes, verify);
    const found = refusal && (await withCause(refusal, kind, envelopes[taken], log.library));
    return new Verdict({ path, records: taken, head: log.head(), refusal: found });
  } finally {
    log.close();
  }
}

/**
 * Audits the bytes of a log's file, by the library's verifier or by another one. A log of no records is the fault
 * `Empty`, unless that is allowed. What is wrong with the file is in the verdict, which has the path that is given.
 *
 * Thrown are `RangeError` where the kind is none, `NoLibrary`, and what `verify` throws.
 */
export async function auditBytes(path, bytes, kind, verify, { allowEmpty = false, library } = {}) {
  const kindName = kindOf(kind);
  try {
    // The digits of all lines are tested before any record is judged, as the tool does.
    const envelopes = envelopesOf(bytesOf(bytes));
    if (!envelopes.length && !allowEmpty) throw new Empty();
    return await judged(path, envelopes, kindName, verify, { library });
  } catch (error) {
    if (error instanceof Fault) return new Verdict({ path, fault: error });
    if (error instanceof OutOfMemory) {
      return new Verdict({ path, fault: new Unreadable("there is no memory for it") });
    }
    if (error instanceof Trapped) return new Verdict({ path, fault: new Unreadable(error.sentence) });
    throw error;
  }
}

// What systems say of files that can't be read.
const WHY = {
  EISDIR: "it is a folder",
  EACCES: "it is closed to the reader",
  EPERM: "it is closed to the reader",
  ERR_FS_FILE_TOO_LARGE: "there is no memory for it",
  ENOMEM: "there is no memory for it",
};

/** What the failure of a read says of its file. */
export function faultOfRead(error) {
  if (error?.code === "ENOENT" || error?.name === "NotFoundError") return new Missing();
  if (error instanceof RangeError) return new Unreadable("there is no memory for it");
  return new Unreadable(WHY[error?.code] ?? String(error?.message ?? error));
}

/** The bytes of a file: of a path or an address of files, or what a page was handed. Throws what the engine says. */
export async function read(file) {
  if (typeof Blob === "function" && file instanceof Blob) return new Uint8Array(await file.arrayBuffer());
  const files = await import("node:fs/promises").catch(() => null);
  if (!files) throw new Error("this engine has no files by paths: hand in a File");
  return files.readFile(file);
}

/** The name of a file. */
export const nameOf = (file) => (typeof file === "string" ? file : (file.href ?? file.name ?? ""));

/**
 * Audits the log in a file, as `auditBytes`: of a path or a `URL` of files, where the engine has files, or of a `File`
 * that a page was handed.
 */
export async function auditFile(file, kind, verify, options) {
  kindOf(kind);
  let bytes;
  try {
    bytes = await read(file);
  } catch (error) {
    return new Verdict({ path: nameOf(file), fault: faultOfRead(error) });
  }
  return auditBytes(nameOf(file), bytes, kind, verify, options);
}

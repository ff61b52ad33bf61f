/** Checks the logs of a Warg package registry by a proved library, which verifies signatures of ECDSA P-256. */
import type { Checkpoint, TimestampedCheckpoint } from "./checkpoints.js";
import type { LogHead } from "./registry.js";

/** Bytes: a `Uint8Array`, another view, or a buffer. */
export type Bytes = ArrayBuffer | SharedArrayBuffer | ArrayBufferView;

/** The kinds of logs, which are their words. */
export const Kind: { readonly PACKAGE: "package"; readonly OPERATOR: "operator" };
export type Kind = "package" | "operator";

/** A kind of logs. Throws `RangeError` for anything else. */
export function kindOf(kind: unknown): Kind;

/**
 * What has to be verified before a record can be appended: whether the signature belongs to the message under the key.
 */
export interface Question {
  /** The text of the signer's key: the algorithm's name, a colon, base64. */
  readonly key: string;
  /** What was signed. */
  readonly message: Uint8Array;
  /** The signature's text, in the form of the key's. */
  readonly signature: string;
}

/** Says whether a question's signature belongs. */
export type Verify = (question: Question) => boolean | Promise<boolean>;

/** A record that a log keeps: its envelope, written anew, and its id. */
export interface Record {
  readonly envelope: Uint8Array;
  readonly id: string;
}

/** What is known of a log's last record beside its id. */
export interface Last {
  /** Its time, in nanoseconds since 1970. */
  readonly timestamp: bigint;
  /** Its version of the protocol. */
  readonly version: number;
  /** How many records the log has; null where it was resumed and not told. */
  readonly count: number | null;
}

/** A release. Times are those of the records, in nanoseconds since 1970. */
export interface Release {
  readonly version: string;
  /** The id of the record that released it. */
  readonly recordId: string;
  /** The id of the key that signed that record. */
  readonly by: string;
  readonly timestamp: bigint;
  /** The digest of the content; null if the release was yanked. */
  readonly content: string | null;
  readonly yanked: boolean;
  /** The id of the key that signed the yank. */
  readonly yankedBy: string | null;
  readonly yankedTimestamp: bigint | null;
}

/** The place of an entry: of its record in the log, and of the entry in the record, from 0. */
export interface Link {
  readonly record: number;
  readonly entry: number;
}

/** A namespace: one that is imported has the name of the registry that it is imported from. */
export interface Namespace {
  readonly importedFrom: string | null;
}

/** How two logs stand to each other, by the contents of their records. */
export const Relation: {
  readonly SAME: "same";
  readonly LEFT_IS_PREFIX: "left-is-prefix";
  readonly RIGHT_IS_PREFIX: "right-is-prefix";
  readonly FORK: "fork";
  readonly COLLISION: "collision";
};
export type Relation = "same" | "left-is-prefix" | "right-is-prefix" | "fork" | "collision";

/** How two logs compare. `left` and `right` are the places where they part; both are 0 for equal logs. */
export interface Comparison {
  readonly relation: Relation;
  readonly left: number;
  readonly right: number;
}

/** How one checkpoint of a registry compares with an older one. */
export const CheckpointComparison: {
  /** The lengths and both roots are equal. */
  readonly SAME: "same";
  /** The newer log is longer, and the proof shows that it begins with the older one. */
  readonly GOES_ON: "goes-on";
  /** The newer log is shorter than the older one: a rollback. */
  readonly GOES_BACK: "goes-back";
  /** The lengths are equal and a root differs: no list of leaves has both. Two signatures show that it forked. */
  readonly FORK: "fork";
  /** The newer log is longer, and the proof does not show that it begins with the older one. */
  readonly NOT_SHOWN: "not-shown";
};
export type CheckpointComparison = "same" | "goes-on" | "goes-back" | "fork" | "not-shown";

/** How the leaves compare that are shown at one place of a registry's log under two checkpoints. */
export const LeafComparison: {
  /** Both proofs hold, and the leaves are one. */
  readonly SAME: "same";
  /** Both proofs hold, and the leaves differ: neither log begins with the other one, or two strings collide. */
  readonly FORK: "fork";
  /** One of the proofs does not hold. */
  readonly NOT_SHOWN: "not-shown";
};
export type LeafComparison = "same" | "fork" | "not-shown";

/** A leaf, and the proof that is to show it in the log of a checkpoint, as `verifyInclusion` takes it. */
export interface ShownLeaf {
  readonly checkpoint: Checkpoint;
  readonly logId: string;
  readonly recordId: string;
  readonly proof: string;
}

/** How two answers about the last record of one log compare that are shown under one root of a registry's map. */
export const HeadComparison: {
  /** Both proofs hold, and the answers are one: one record, or none. */
  readonly SAME: "same";
  /** Both proofs hold, of two records: two strings collide. */
  readonly TWO: "two";
  /** Both proofs hold, of a record and of none: two strings collide. */
  readonly ONE_AND_NONE: "one-and-none";
  /** One of the proofs does not hold. */
  readonly NOT_SHOWN: "not-shown";
};
export type HeadComparison = "same" | "two" | "one-and-none" | "not-shown";

/** How two checkpoints of a registry compare that the log of a newer one is shown to begin with. */
export const BeginningComparison: {
  /** Both proofs hold, and the lengths and both roots are equal. */
  readonly SAME: "same";
  /**
   * Both proofs hold, the lengths and the logs' roots are equal, and the maps' roots differ: no list of leaves has
   * both. Two signatures show that the registry forked.
   */
  readonly FORK: "fork";
  /** Both proofs hold, the lengths are equal, and the logs' roots differ: two strings collide. */
  readonly COLLISION: "collision";
  /** Both proofs hold, and the lengths differ: nothing is said against the two. */
  readonly TWO_LENGTHS: "two-lengths";
  /** One of the proofs does not hold. */
  readonly NOT_SHOWN: "not-shown";
};
export type BeginningComparison = "same" | "fork" | "collision" | "two-lengths" | "not-shown";

/** A checkpoint, and the proof, as `verifyConsistency` takes it, that the log of a newer one begins with its own. */
export interface ShownBeginning {
  readonly checkpoint: Checkpoint;
  readonly proof: string;
}

/** Where the library's module is had from: an address, a response, its bytes, or the module. */
export type Source = string | URL | Response | BufferSource | WebAssembly.Module;

/** A library that serves in place of the one that is shared. */
export interface OfLibrary {
  library?: Library | undefined;
}

/** What is said of a saved state beside its text. */
export interface OfSaved extends OfLibrary {
  /** How many records the log had when it was saved. */
  readonly count?: number | bigint;
}

/**
 * The proved library: an instance of its module, with its memory. Where a call traps, it throws `Trapped`, and the
 * library is given up: its logs and trees are closed.
 */
export class Library {
  constructor(module: WebAssembly.Module);
  /** A library of its own, of the package's file where no source is given, with `maximum` bytes of memory. */
  static load(options?: { source?: Source | undefined; maximum?: number | undefined }): Promise<Library>;
  readonly module: WebAssembly.Module;
  /** Whether a call trapped. */
  readonly isGivenUp: boolean;
  /** How much memory the module has, and how much of it is in use, in bytes. */
  memory(): { size: number; used: number };
  /** How much memory the module may have, in bytes. */
  limit(bytes: number): void;
  version(): string;
  recordId(kind: Kind, envelope: Bytes): string;
  /** The id of the log of a kind and a name; the log of operators has no name. */
  logId(kind: Kind, name?: string): string;
  /** The leaf of a log's record in the registry's log: the bytes that are hashed, with a zero before them. */
  leaf(logId: string, recordId: string): Uint8Array;
  /** The message that a key of the registry signs of a checkpoint. */
  checkpointMessage(checkpoint: TimestampedCheckpoint): Uint8Array;
  verify(key: string, message: Bytes, signature: string): boolean;
  verifyInclusion(
    logId: string,
    recordId: string,
    place: number | bigint,
    length: number | bigint,
    root: string,
    proof: string,
  ): boolean;
  verifyConsistency(
    oldLength: number | bigint,
    oldRoot: string,
    newLength: number | bigint,
    newRoot: string,
    proof: string,
  ): boolean;
  verifyPresence(logId: string, recordId: string, root: string, proof: string): boolean;
  verifyAbsence(logId: string, root: string, proof: string): boolean;
  /** How a checkpoint compares with an older one, by a proof as `verifyConsistency` takes it. */
  compareCheckpoints(oldCheckpoint: Checkpoint, newCheckpoint: Checkpoint, proof?: string): CheckpointComparison;
  /** How the leaves compare that two clients were shown at one place, under checkpoints of any lengths. */
  compareLeaves(place: number | bigint, oldLeaf: ShownLeaf, newLeaf: ShownLeaf): LeafComparison;
  /** How two answers about the last record of one log compare that two clients were shown under one root of a map. */
  compareHeads(mapRoot: string, logId: string, one: LogHead, other: LogHead): HeadComparison;
  /** How two checkpoints compare that the log of a newer one is shown to begin with. */
  compareBeginnings(newCheckpoint: Checkpoint, one: ShownBeginning, other: ShownBeginning): BeginningComparison;
}

/** A log of either kind; make a `PackageLog` or an `OperatorLog`. */
export abstract class Log {
  protected constructor(library: Library);
  static readonly KIND: Kind;
  /** The library that the log is made over. */
  readonly library: Library;
  readonly kind: Kind;
  /** Gives the log's memory back. Closing twice is harmless; any other call then throws `NotOpen`. */
  close(): void;
  /**
   * What has to be verified before the envelope's record can be appended. Throws `Refused` where nothing could help.
   */
  ask(envelope: Bytes): Question;
  /** Appends the envelope's record by the answer to its question. */
  appendAnswered(envelope: Bytes, question: Question, belongs: boolean): void;
  /** Appends the envelope's record if its signature belongs, which the library verifies: ECDSA P-256. */
  appendSigned(envelope: Bytes): void;
  /** The same; or by `verify`, where there is one. */
  append(envelope: Bytes, verify?: Verify | null): Promise<void>;
  /** The id of the last record; null before any. */
  head(): string | null;
  /** The time and the version of the last record, and how many records there are; null before any. */
  last(): Last | null;
  /** How many records there are. A resumed log does not know, and throws `BadArgument`. */
  readonly length: number;
  /** The record at a place, from 0; null if the log has none there. */
  record(place: number | bigint): Record | null;
  records(): IterableIterator<Record>;
  holds(keyId: string, permission: string): boolean;
  permissions(keyId: string): string[] | null;
  publicKey(keyId: string): string | null;
  /** By which entries a key id came to hold a permission; null if it does not hold it. */
  chain(keyId: string, permission: string): Link[] | null;
  compare(other: Log): Comparison;
  /** The state as a text of JSON, without its records. */
  toJson(): string;
}

/** The log of a package. */
export class PackageLog extends Log {
  constructor(library: Library);
  static readonly KIND: "package";
  static open(options?: OfLibrary): Promise<PackageLog>;
  /** A log that goes on from a saved state. It has no records. `last` goes on counting from `count`, where it is told. */
  static fromJson(saved: string, options?: OfSaved): Promise<PackageLog>;
  latest(requirement: string): Release | null;
  release(version: string): Release | null;
  releases(): IterableIterator<Release>;
}

/** The log of a registry's operators. */
export class OperatorLog extends Log {
  constructor(library: Library);
  static readonly KIND: "operator";
  static open(options?: OfLibrary): Promise<OperatorLog>;
  /** A log that goes on from a saved state. It has no records. `last` goes on counting from `count`, where it is told. */
  static fromJson(saved: string, options?: OfSaved): Promise<OperatorLog>;
  namespaceState(name: string): Namespace | null;
  /**
   * Whether a checkpoint is signed by a key that the log lets sign: one that holds "commit". Throws `UnknownAlgorithm`
   * where the key may sign and is not of `ecdsa-p256`.
   */
  verifyCheckpoint(checkpoint: TimestampedCheckpoint, keyId: string, signature: string): boolean;
}

/** A log of no records, of a kind. */
export function logOf(kind: "package", options?: OfLibrary): Promise<PackageLog>;
export function logOf(kind: "operator", options?: OfLibrary): Promise<OperatorLog>;
export function logOf(kind: Kind, options?: OfLibrary): Promise<PackageLog | OperatorLog>;

/** Whether the engine runs the library: whether it has WebAssembly with vectors of 128 bits. */
export function isSupported(): boolean;

export function libraryVersion(options?: OfLibrary): Promise<string>;
export function recordId(kind: Kind, envelope: Bytes, options?: OfLibrary): Promise<string>;
export function logId(kind: Kind, name?: string, options?: OfLibrary): Promise<string>;
export function leaf(logId: string, recordId: string, options?: OfLibrary): Promise<Uint8Array>;
export function checkpointMessage(checkpoint: TimestampedCheckpoint, options?: OfLibrary): Promise<Uint8Array>;
export function verify(key: string, message: Bytes, signature: string, options?: OfLibrary): Promise<boolean>;
export function verifyInclusion(
  logId: string,
  recordId: string,
  place: number | bigint,
  length: number | bigint,
  root: string,
  proof: string,
  options?: OfLibrary,
): Promise<boolean>;
export function verifyConsistency(
  oldLength: number | bigint,
  oldRoot: string,
  newLength: number | bigint,
  newRoot: string,
  proof: string,
  options?: OfLibrary,
): Promise<boolean>;
export function verifyPresence(
  logId: string,
  recordId: string,
  root: string,
  proof: string,
  options?: OfLibrary,
): Promise<boolean>;
export function verifyAbsence(logId: string, root: string, proof: string, options?: OfLibrary): Promise<boolean>;
export function compareCheckpoints(
  oldCheckpoint: Checkpoint,
  newCheckpoint: Checkpoint,
  proof?: string,
  options?: OfLibrary,
): Promise<CheckpointComparison>;
export function compareLeaves(
  place: number | bigint,
  oldLeaf: ShownLeaf,
  newLeaf: ShownLeaf,
  options?: OfLibrary,
): Promise<LeafComparison>;
export function compareHeads(
  mapRoot: string,
  logId: string,
  one: LogHead,
  other: LogHead,
  options?: OfLibrary,
): Promise<HeadComparison>;
export function compareBeginnings(
  newCheckpoint: Checkpoint,
  one: ShownBeginning,
  other: ShownBeginning,
  options?: OfLibrary,
): Promise<BeginningComparison>;

/** What a call is refused for: `name` and `sentence` are the library's own, and `message` is what can be printed. */
export class WeoldrinError extends Error {
  constructor(text: string);
  readonly sentence: string;
}
/** The log was closed, or the trees of the registry. */
export class NotOpen extends WeoldrinError {
  constructor(text?: string);
}
/** There was no memory. The same call may be made again. */
export class OutOfMemory extends WeoldrinError {
  constructor(text?: string);
}
/** The bytes are no envelope of a record of the log's kind. */
export class NoEnvelope extends WeoldrinError {}
/** The record is unlawful, or its signature does not belong. */
export class Refused extends WeoldrinError {}
/** The key is of another algorithm than the library verifies. */
export class UnknownAlgorithm extends WeoldrinError {
  constructor(text?: string);
}
/** An argument is not of its form, or the log is none that has this call. */
export class BadArgument extends WeoldrinError {
  constructor(text?: string);
}
/** The library trapped, as where the engine's stack ends. Its logs and trees are closed. */
export class Trapped extends WeoldrinError {
  constructor(cause: unknown);
  readonly cause: unknown;
}
/** The library can't be had, or not in this engine. */
export class NoLibrary extends WeoldrinError {}
/** There is no WebCrypto, which a page has where it is served safely. */
export class NoWebCrypto extends WeoldrinError {
  constructor(text?: string);
}

/** Why the audit of a file is no yes. `message` is a sentence, as it is printed. */
export abstract class Fault extends Error {}
/** There is no such file. */
export class Missing extends Fault {
  constructor();
}
/** The file could not be read, or what judges it broke off. */
export class Unreadable extends Fault {
  constructor(why: string);
  readonly why: string;
}
/** A line is no even number of hex digits. */
export class BadLine extends Fault {
  constructor(line: number, number: number, cause?: string);
  /** Its place among the lines that stand for records, from 0. */
  readonly line: number;
  /** Its place among all lines of the file, from 1. */
  readonly number: number;
  /** What is likely the matter; empty where no cause is known. */
  readonly cause: string;
}
/** There is no record. */
export class Empty extends Fault {
  constructor();
}

/** The first record of a log that is refused: its place, from 0, and why. */
export class Refusal {
  constructor(place: number, name: string, sentence: string);
  readonly place: number;
  readonly name: string;
  readonly sentence: string;
  toString(): string;
}

/** What an audit found in a file. */
export class Verdict {
  constructor(found: {
    path: string;
    records?: number;
    head?: string | null;
    refusal?: Refusal | null;
    fault?: Fault | null;
  });
  readonly path: string;
  /** How many records were taken. */
  readonly records: number;
  /** The id of the last of them. */
  readonly head: string | null;
  readonly refusal: Refusal | null;
  /** What is wrong with the file itself. */
  readonly fault: Fault | null;
  /** Whether the whole log was read and each record of it is lawful. */
  readonly accepted: boolean;
  /** A line, as it is printed. */
  toString(): string;
}

export interface AuditOptions extends OfLibrary {
  /** Takes a log of no records. */
  allowEmpty?: boolean | undefined;
}

/** The envelopes that the bytes of a log's file say, each a line of hex. Throws `BadLine`. */
export function envelopesOf(bytes: Uint8Array): Uint8Array[];
/** Appends envelopes until one is refused. */
export function appendAll(
  log: Log,
  envelopes: Iterable<Bytes>,
  verify?: Verify | null,
): Promise<{ taken: number; refusal: Refusal | null }>;
/** Audits the bytes of a log's file. */
export function auditBytes(
  path: string,
  bytes: Bytes,
  kind: Kind,
  verify?: Verify | null,
  options?: AuditOptions,
): Promise<Verdict>;
/** Audits the log in a file: of a path, or of what a page was handed. */
export function auditFile(
  file: string | URL | Blob,
  kind: Kind,
  verify?: Verify | null,
  options?: AuditOptions,
): Promise<Verdict>;
/** Audits the logs in many files side by side, by threads, and gives their verdicts in the order of the files. */
export function auditMany(
  files: Iterable<string | URL | Blob>,
  kind: Kind,
  options?: {
    workers?: number;
    verifier?: "library" | "web-crypto";
    allowEmpty?: boolean;
    source?: Source;
    maximum?: number;
  },
): Promise<Verdict[]>;

/** A text as it is printed, with nothing in it that a terminal or a reader of lines takes for more than a sign. */
export function printable(text: string): string;

export { RegistryTrees } from "./registry.js";
export type { LogHead, Roots } from "./registry.js";
export * as checkpoints from "./checkpoints.js";
export * as p256 from "./p256.js";
export * as records from "./records.js";

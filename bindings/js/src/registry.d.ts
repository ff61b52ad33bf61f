/** The trees of a registry, for who keeps one. */
import type { TimestampedCheckpoint } from "./checkpoints.js";
import type { Bytes, Library, OfLibrary } from "./index.js";

/** The roots of the log of all leaves and of the map. */
export interface Roots {
  readonly logRoot: string;
  readonly mapRoot: string;
}

/** The last record of a log, and the proof of its presence; null and the proof of its absence where it has no leaf. */
export interface LogHead {
  readonly recordId: string | null;
  readonly proof: string;
}

/**
 * The trees of a registry: the log of all leaves, and the map of the heads of logs. Proofs are those that the calls
 * which verify them take, under the roots and the length of the moment.
 *
 * Places and lengths that are given are numbers: no memory has room for 2^53 leaves. A number from 2^53 on that is
 * passed is a `BadArgument`; a `bigint` may be up to 2^64 - 1.
 */
export class RegistryTrees {
  constructor(library: Library);
  /** Trees of no leaves. */
  static open(options?: OfLibrary): Promise<RegistryTrees>;
  /** Trees of the leaves that `toBytes` gave, or of the first of them. Throws `BadArgument` of another length. */
  static fromBytes(saved: Bytes, options?: OfLibrary): Promise<RegistryTrees>;
  /** The library that the trees are made over. */
  readonly library: Library;
  /** Gives the memory of the trees back. Closing twice is harmless; any other call then throws `NotOpen`. */
  close(): void;
  /** Puts the leaf of a log's record last, makes the record the head of its log, and gives the leaf's place, from 0. */
  push(logId: string, recordId: string): number;
  /** The leaves, 64 bytes for each: the 32 of its log's id and the 32 of its record's. */
  toBytes(): Uint8Array;
  /** How many leaves were pushed. */
  readonly length: number;
  roots(): Roots;
  /** The checkpoint of the moment with its time, in seconds since 1970. */
  checkpoint(timestamp: number | bigint): TimestampedCheckpoint;
  /** The proof that the leaf at a place, from 0, is in the log of all leaves; null if there is none there. */
  inclusion(place: number | bigint): string | null;
  /** The proof that the log of all leaves begins with its first leaves; null if it has not that many. */
  consistency(firstLength: number | bigint): string | null;
  head(logId: string): LogHead;
}

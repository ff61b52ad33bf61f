/** Writes records and the envelopes that carry them. Nothing is judged here: a log does that. */
import type { Bytes, Kind } from "./index.js";

/** The text of a SHA-256 digest, as it stands in records. */
export function sha256Text(data: Bytes): string;
/** The id of a key: the fingerprint of its text. */
export function keyId(publicKey: string): string;
/** A number in the least bytes that say it, as protocol buffers write it. */
export function varint(number: number | bigint): Uint8Array;
/** The entry that begins a log, by the key that signs it. */
export function init(publicKey: string): Uint8Array;
/** The entry that gives permissions to a key: their names, or a text of them with spaces between. */
export function grant(kind: Kind, publicKey: string, permissions: string | Iterable<string>): Uint8Array;
/** The entry that takes permissions from a key id. */
export function revoke(kind: Kind, id: string, permissions: string | Iterable<string>): Uint8Array;
/** The entry of a package log that releases a version; `content` is the digest of its bytes. */
export function release(version: string, content: string): Uint8Array;
/** The entry of a package log that yanks a version. */
export function yank(version: string): Uint8Array;
/** The entry of an operator log that defines a namespace. */
export function defineNamespace(name: string): Uint8Array;
/** The entry of an operator log that imports a namespace from another registry. */
export function importNamespace(name: string, registry: string): Uint8Array;
/** The time that the system's clock tells, in nanoseconds since 1970. */
export function now(): bigint;
/** A record's bytes: the id of the record before it or null, its time, its entries, the version of the protocol. */
export function contents(
  prev: string | null,
  timestamp: bigint,
  entries: Iterable<Uint8Array>,
  version?: number,
): Uint8Array;
/** What a record's signature signs. */
export function message(kind: Kind, record: Bytes): Uint8Array;
/** The envelope of a record that was signed. */
export function envelope(record: Bytes, id: string, signature: string): Uint8Array;
/** The envelope of a record, signed by a key. */
export function signed(
  kind: Kind,
  record: Uint8Array,
  publicKey: string,
  sign: (message: Uint8Array) => string | Promise<string>,
): Promise<Uint8Array>;

/**
 * Writes records and the envelopes that carry them, in the bytes that docs/FORMATS.md gives.
 *
 * Nothing is judged here: a log does that when the envelope is appended.
 * @module
 */
import { bytesOf, hexOf, joined, utf8Of, writtenOf } from "./bytes.js";
import { printable } from "./printing.js";
import { sha256 } from "./sha256.js";
import { Kind, kindOf } from "./values.js";

const PREFIX = {
  [Kind.PACKAGE]: "WARG-PACKAGE-RECORD-SIGNATURE-V0:",
  [Kind.OPERATOR]: "WARG-OPERATOR-RECORD-SIGNATURE-V0:",
};
// What keys may do in the logs of each kind, and its number in messages.
const PERMISSIONS = {
  [Kind.PACKAGE]: new Map([
    ["release", 1],
    ["yank", 2],
  ]),
  [Kind.OPERATOR]: new Map([
    ["commit", 1],
    ["defineNamespace", 2],
    ["importNamespace", 3],
  ]),
};
const NANOS = 1_000_000_000n;

/** The text of a SHA-256 digest, as it stands in records. */
export const sha256Text = (data) => `sha256:${hexOf(sha256(bytesOf(data)))}`;

/** The id of a key: the fingerprint of its text. */
export const keyId = (publicKey) => sha256Text(writtenOf(publicKey));

/** A number in the least bytes that say it, as protocol buffers write it. */
export function varint(number) {
  const bytes = [];
  let rest = BigInt(number);
  for (; rest >= 128n; rest >>= 7n) bytes.push(Number(rest & 127n) + 128);
  bytes.push(Number(rest));
  return Uint8Array.from(bytes);
}

const numberField = (field, value) =>
  value === 0n ? new Uint8Array() : joined([varint(field * 8), varint(BigInt.asUintN(64, value))]);

const bytesField = (field, value) => joined([varint(field * 8 + 2), varint(value.length), value]);

const textField = (field, value) => (value === "" ? new Uint8Array() : bytesField(field, writtenOf(value)));

function permissionsField(kind, names) {
  const known = PERMISSIONS[kindOf(kind)];
  const words = typeof names === "string" ? names.split(/\s+/).filter((it) => it !== "") : [...names];
  for (const word of words) {
    if (!known.has(word)) {
      const [shown, all] = [printable(String(word)), [...known.keys()].join(", ")];
      throw new RangeError(`the permissions of a log of this kind are ${all}, and not ${shown}`);
    }
  }
  if (!words.length) return new Uint8Array();
  return bytesField(2, joined(words.map((it) => varint(known.get(it)))));
}

/** The entry that begins a log, by the key that signs it. */
export const init = (publicKey) => bytesField(1, joined([textField(1, publicKey), textField(2, "sha256")]));

/**
 * The entry that gives permissions to a key: their names, or a text of them with spaces between. Throws `RangeError`
 * where logs of this kind have no such permission, and says which they have.
 */
export const grant = (kind, publicKey, permissions) =>
  bytesField(2, joined([textField(1, publicKey), permissionsField(kind, permissions)]));

/** The entry that takes permissions from a key id, which are named as for `grant`. */
export const revoke = (kind, id, permissions) =>
  bytesField(3, joined([textField(1, id), permissionsField(kind, permissions)]));

/** The entry of a package log that releases a version; `content` is the digest of its bytes, as of `sha256Text`. */
export const release = (version, content) => bytesField(4, joined([textField(1, version), textField(2, content)]));

/** The entry of a package log that yanks a version. */
export const yank = (version) => bytesField(5, textField(1, version));

/** The entry of an operator log that defines a namespace. */
export const defineNamespace = (name) => bytesField(4, textField(1, name));

/** The entry of an operator log that imports a namespace from another registry. */
export const importNamespace = (name, registry) => bytesField(5, joined([textField(1, name), textField(2, registry)]));

/** The time that the system's clock tells, in nanoseconds since 1970. */
export const now = () => BigInt(Date.now()) * 1_000_000n;

/**
 * A record's bytes: the id of the record before it, or null, its time in nanoseconds since 1970, its entries, and the
 * version of the protocol.
 */
export function contents(prev, timestamp, entries, version = 1) {
  if (typeof timestamp !== "bigint") throw new TypeError("a time is a bigint of nanoseconds since 1970");
  let [seconds, nanos] = [timestamp / NANOS, timestamp % NANOS];
  if (nanos < 0n) [seconds, nanos] = [seconds - 1n, nanos + NANOS];
  const link = prev === null ? new Uint8Array() : bytesField(1, writtenOf(prev));
  const time = bytesField(3, joined([numberField(1, seconds), numberField(2, nanos)]));
  return joined([link, numberField(2, BigInt(version)), time, ...Array.from(entries, (it) => bytesField(4, it))]);
}

/** What a record's signature signs. */
export const message = (kind, record) => joined([utf8Of(PREFIX[kindOf(kind)]), bytesOf(record)]);

/** The envelope of a record that was signed. */
export const envelope = (record, id, signature) =>
  joined([bytesField(1, bytesOf(record)), textField(2, id), textField(3, signature)]);

/**
 * The envelope of a record, signed by a key: `sign` gives the text of a signature of a message, or a promise of it.
 */
export async function signed(kind, record, publicKey, sign) {
  return envelope(record, keyId(publicKey), await sign(message(kind, record)));
}

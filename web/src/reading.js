/**
 * Reads records to show them, by docs/FORMATS.md. Nothing is judged here: the library does that, and what it took can
 * be read. Of a record that it refused this may read less than all, or throw `RangeError`.
 * @module
 */
import { joined as joinedAll } from "../../bindings/js/src/bytes.js";
import { records } from "../../bindings/js/src/index.js";

const DECODER = new TextDecoder("utf-8", { ignoreBOM: true });
const PERMISSIONS = {
  package: ["release", "yank"],
  operator: ["commit", "defineNamespace", "importNamespace"],
};
const MOST_PERMISSIONS = 16;
const [NUMBER, EIGHT, BYTES, FOUR] = [0, 1, 2, 5];

const textOf = (bytes) => DECODER.decode(bytes);

/** A number and where it ends. */
function varintAt(bytes, from) {
  let value = 0n;
  for (let at = from; at < Math.min(bytes.length, from + 10); at++) {
    value |= BigInt(bytes[at] & 127) << BigInt(7 * (at - from));
    if (bytes[at] < 128) return [BigInt.asUintN(64, value), at + 1];
  }
  throw new RangeError("a number ends early");
}

/** The same of a number that is a length or a field's key: most of them are of one byte. */
function lengthAt(bytes, from) {
  if (bytes[from] < 128) return [bytes[from], from + 1];
  const [value, at] = varintAt(bytes, from);
  return [Number(value), at];
}

/** The fields of a message: number, type, and a bigint or bytes. */
function* fieldsOf(bytes) {
  for (let at = 0; at < bytes.length; ) {
    let key, value, size;
    [key, at] = lengthAt(bytes, at);
    const type = key % 8;
    if (type === NUMBER) {
      [value, at] = varintAt(bytes, at);
    } else {
      if (type === BYTES) [size, at] = lengthAt(bytes, at);
      else if (type === EIGHT || type === FOUR) size = type === EIGHT ? 8 : 4;
      else throw new RangeError("a field is of no type");
      if (size > bytes.length - at) throw new RangeError("a field ends early");
      value = bytes.subarray(at, at + size);
      at += size;
    }
    yield [Math.floor(key / 8), type, value];
  }
}

const joined = (parts) => (parts.length === 1 ? parts[0] : joinedAll(parts));

/** The last payload of each field of bytes, by its number. */
function lastOf(bytes) {
  const found = [];
  for (const [field, type, value] of fieldsOf(bytes)) if (type === BYTES) found[field] = value;
  return found;
}

function permissionsOf(kind, bytes) {
  const numbers = [];
  for (const [field, type, value] of fieldsOf(bytes)) {
    if (field !== 2) continue;
    if (type === NUMBER) numbers.push(value);
    for (let at = 0, number; type === BYTES && at < value.length; numbers.push(number)) {
      [number, at] = varintAt(value, at);
    }
  }
  const names = numbers.map((it) => PERMISSIONS[kind][Number(it) - 1] ?? String(it));
  // There are three at most, but of those that are none there may be very many.
  return [...new Set(names)].slice(0, MOST_PERMISSIONS);
}

/** What the payload of an entry's member says. */
function memberOf(kind, member, bytes) {
  const [, first = new Uint8Array(), second = new Uint8Array()] = lastOf(bytes);
  const word = textOf(first);
  if (member === 1) return { what: "init", key: word, id: records.keyId(word) };
  if (member <= 3) {
    const permissions = permissionsOf(kind, bytes);
    if (member === 3) return { what: "revoke", id: word, permissions };
    return { what: "grant", key: word, id: records.keyId(word), permissions };
  }
  if (kind === "package") {
    return member === 4 ? { what: "release", version: word, content: textOf(second) } : { what: "yank", version: word };
  }
  return member === 4 ? { what: "define", name: word } : { what: "import", name: word, registry: textOf(second) };
}

/** What an entry says: of its members the last one counts, with what stands right before it of the same. */
function entryOf(kind, bytes) {
  const members = [];
  for (const [field, type, value] of fieldsOf(bytes)) if (type === BYTES && field <= 5) members.push([field, value]);
  if (!members.length) return { what: "none" };
  const last = members.at(-1)[0];
  const from = members.findLastIndex(([field]) => field !== last) + 1;
  return memberOf(kind, last, joined(members.slice(from).map(([, value]) => value)));
}

function timeOf(bytes) {
  let [seconds, nanos] = [0n, 0n];
  for (const [field, type, value] of fieldsOf(bytes)) {
    if (type === NUMBER && field === 1) seconds = BigInt.asIntN(64, value);
    if (type === NUMBER && field === 2) nanos = BigInt.asIntN(32, value);
  }
  return seconds * 1_000_000_000n + nanos;
}

/**
 * What an envelope of a record of a kind says: its signer's key id, its time in nanoseconds since 1970, the id of the
 * record before it or null, its version of the protocol, and its entries.
 */
export function recordOf(kind, envelope) {
  const [, contents = new Uint8Array(), signer = new Uint8Array()] = lastOf(envelope);
  const found = { signer: textOf(signer), prev: null, version: 0, time: 0n, entries: [] };
  const times = [];
  for (const [field, type, value] of fieldsOf(contents)) {
    if (field === 1 && type === BYTES) found.prev = textOf(value);
    if (field === 2 && type === NUMBER) found.version = Number(BigInt.asUintN(32, value));
    if (field === 3 && type === BYTES) times.push(value);
    if (field === 4 && type === BYTES) found.entries.push(entryOf(kind, value));
  }
  if (times.length) found.time = timeOf(joined(times));
  return found;
}

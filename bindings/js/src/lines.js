/**
 * The lines of a log's file, as the tool reads them.
 * @module
 */
import { BadLine } from "./faults.js";

const [FEED, RETURN, HASH] = [0x0a, 0x0d, 0x23];

const MARKS = [
  [[0xef, 0xbb, 0xbf], "the file begins with a byte order mark"],
  [[0xff, 0xfe], "the file is no plain text: it is UTF-16"],
  [[0xfe, 0xff], "the file is no plain text: it is UTF-16"],
];

/**
 * The lines that stand for records: each ends with a line feed, which the last may lack, and a carriage return before
 * that is dropped. Lines that begin with `#` are passed over, and so is the last of the others if it is blank. A line
 * is its number, from 1, and its bytes.
 * @param {Uint8Array} bytes
 * @returns {Generator<{ number: number, digits: Uint8Array }>}
 */
export function* recordLines(bytes) {
  let held;
  for (let at = 0, number = 1; at < bytes.length; number++) {
    const found = bytes.indexOf(FEED, at);
    const end = found < 0 ? bytes.length : found;
    if (bytes[at] !== HASH) {
      if (held) yield held;
      held = { number, digits: bytes.subarray(at, end > at && bytes[end - 1] === RETURN ? end - 1 : end) };
    }
    at = end + 1;
  }
  if (held?.digits.length) yield held;
}

/** The number that a digit says, or 16 and more for what is none. */
function digitOf(byte) {
  if (byte >= 0x30 && byte <= 0x39) return byte - 0x30;
  const small = byte | 0x20;
  return small >= 0x61 && small <= 0x66 ? small - 0x57 : 16;
}

/** What is likely the matter with a line; empty where no cause is known. */
function causeOf({ number, digits }) {
  const found = MARKS.find(([mark]) => number === 1 && mark.every((byte, place) => digits[place] === byte));
  if (found) return found[1];
  return digits.some((byte) => byte === 0 || byte >= 0x80) ? "the file is no plain text" : "";
}

/**
 * The envelope that a line says in hex, whose place among those of records is told where it says none. Throws
 * `BadLine`.
 */
export function envelopeOf(place, line) {
  const { number, digits } = line;
  const bytes = new Uint8Array(digits.length >> 1);
  let isWell = digits.length % 2 === 0;
  for (let at = 0; isWell && at < bytes.length; at++) {
    const [high, low] = [digitOf(digits[2 * at]), digitOf(digits[2 * at + 1])];
    isWell = high < 16 && low < 16;
    bytes[at] = high * 16 + low;
  }
  if (!isWell) throw new BadLine(place, number, causeOf(line));
  return bytes;
}

/**
 * The envelopes that the bytes of a log's file say, each a line of hex. Throws `BadLine` of the first line that says
 * none.
 * @param {Uint8Array} bytes
 * @returns {Uint8Array[]}
 */
export function envelopesOf(bytes) {
  const found = [];
  for (const line of recordLines(bytes)) found.push(envelopeOf(found.length, line));
  return found;
}

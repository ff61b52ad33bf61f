/**
 * Bytes and texts, as they are passed to the library.
 * @module
 */

const ENCODER = new TextEncoder();
// A mark of the byte order is a character like others: whoever takes it away reads another text.
const DECODER = new TextDecoder("utf-8", { fatal: true, ignoreBOM: true });
const HALF = /\p{Cs}/u;

/** @param {unknown} value */
const typeOf = (value) => (value === null ? "null" : typeof value);

/**
 * The bytes that are there: those of a `Uint8Array`, another view or a buffer.
 * @param {ArrayBuffer | SharedArrayBuffer | ArrayBufferView} data
 * @returns {Uint8Array}
 */
export function bytesOf(data) {
  if (data instanceof Uint8Array) return data;
  if (ArrayBuffer.isView(data)) return new Uint8Array(data.buffer, data.byteOffset, data.byteLength);
  if (data instanceof ArrayBuffer || (typeof SharedArrayBuffer === "function" && data instanceof SharedArrayBuffer)) {
    return new Uint8Array(data);
  }
  throw new TypeError(`bytes are wanted, not ${typeOf(data)}`);
}

/**
 * The text that this is. Throws `TypeError` where it is none.
 * @param {string} text
 * @returns {string}
 */
export function textIn(text) {
  if (typeof text !== "string") throw new TypeError(`a text is wanted, not ${typeOf(text)}`);
  return text;
}

/**
 * The bytes of a text in UTF-8. What is no text, as half a surrogate pair, is none for the library either: it gets the
 * three bytes of its number, and no other character in its place.
 * @param {string} text
 * @returns {Uint8Array}
 */
export function utf8Of(text) {
  textIn(text);
  if (!HALF.test(text)) return ENCODER.encode(text);
  return joined(
    [...text].map((sign) => {
      const number = /** @type {number} */ (sign.codePointAt(0));
      if (number < 0xd800 || number > 0xdfff) return ENCODER.encode(sign);
      return Uint8Array.of(0xe0 | (number >> 12), 0x80 | ((number >> 6) & 0x3f), 0x80 | (number & 0x3f));
    }),
  );
}

/**
 * Writes the bytes of a text to a place of others, and gives how many they are.
 * @param {string} text
 * @param {Uint8Array} bytes
 * @param {number} at
 * @returns {number}
 */
export function putText(text, bytes, at) {
  for (let place = 0; place < text.length; place++) {
    const unit = text.charCodeAt(place);
    if (unit > 0x7f) {
      const all = utf8Of(text);
      bytes.set(all, at);
      return all.length;
    }
    bytes[at + place] = unit;
  }
  return text.length;
}

/**
 * The bytes of a text that is written into a record. Throws `RangeError` of half a surrogate pair.
 * @param {string} text
 * @returns {Uint8Array}
 */
export function writtenOf(text) {
  const bytes = utf8Of(text);
  if (HALF.test(text)) throw new RangeError("half a surrogate pair is no text");
  return bytes;
}

/**
 * The text of bytes in UTF-8. Throws `TypeError` where they are none.
 * @param {Uint8Array} bytes
 * @returns {string}
 */
export const textOf = (bytes) => DECODER.decode(bytes);

/**
 * Bytes one behind the other.
 * @param {Uint8Array[]} parts
 * @returns {Uint8Array}
 */
export function joined(parts) {
  const whole = new Uint8Array(parts.reduce((sum, part) => sum + part.length, 0));
  let at = 0;
  for (const part of parts) {
    whole.set(part, at);
    at += part.length;
  }
  return whole;
}

/**
 * The digits of bytes.
 * @param {Uint8Array} bytes
 * @returns {string}
 */
export const hexOf = (bytes) => Array.from(bytes, (byte) => byte.toString(16).padStart(2, "0")).join("");

/**
 * The bytes that digits of either case say, or null where they say none.
 * @param {string} digits
 * @returns {Uint8Array | null}
 */
export function bytesOfHex(digits) {
  if (digits.length % 2 || !/^[0-9a-fA-F]*$/.test(digits)) return null;
  const bytes = new Uint8Array(digits.length / 2);
  for (let place = 0; place < bytes.length; place++) {
    bytes[place] = Number.parseInt(digits.slice(2 * place, 2 * place + 2), 16);
  }
  return bytes;
}

/**
 * The base64 of bytes, with padding.
 * @param {Uint8Array} bytes
 * @returns {string}
 */
export function base64Of(bytes) {
  let text = "";
  for (const byte of bytes) text += String.fromCharCode(byte);
  return btoa(text);
}

/**
 * The bytes of base64, or null where the text is none: there is one text of some bytes, without white space, with its
 * padding, and without other bits behind the last byte.
 * @param {string} text
 * @returns {Uint8Array | null}
 */
export function bytesOfBase64(text) {
  if (text.length % 4 || !/^[A-Za-z0-9+/]*={0,2}$/.test(text)) return null;
  const bytes = Uint8Array.from(atob(text), (sign) => sign.charCodeAt(0));
  return base64Of(bytes) === text ? bytes : null;
}

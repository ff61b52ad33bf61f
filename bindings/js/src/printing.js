/**
 * Prints what strangers wrote: nothing of it reaches a terminal, or a reader of lines, as more than a sign.
 * @module
 */

// Control characters, separators of lines, marks of direction and of the byte order, and what is no character.
const HIDDEN = /[\p{Cc}\u061c\u200e\u200f\u2028-\u202e\u2066-\u2069\ufeff\p{Cs}\p{NChar}]/gu;
const ESCAPED = /[\\\p{Cc}\u061c\u200e\u200f\u2028-\u202e\u2066-\u2069\ufeff\p{Cs}\p{NChar}]/gu;

/** @param {string} sign */
const numbered = (sign) => `\\u{${/** @type {number} */ (sign.codePointAt(0)).toString(16)}}`;

/**
 * A text as it is printed: `\u{1b}` in place of a control character, a separator of lines, a mark of direction or a
 * number that is no character, and two backslashes for one. Two texts that are printed alike are one.
 * @param {string} text
 * @returns {string}
 */
export function printable(text) {
  return text.replace(ESCAPED, (sign) => (sign === "\\" ? "\\\\" : numbered(sign)));
}

/**
 * A value as a text of JSON in which no character is a hidden one: `\uXXXX` stands for each, which says the same.
 * @param {unknown} value
 * @returns {string}
 */
export function printableJson(value) {
  return JSON.stringify(value).replace(HIDDEN, (sign) =>
    [...Array(sign.length).keys()]
      .map((place) => `\\u${sign.charCodeAt(place).toString(16).padStart(4, "0")}`)
      .join(""),
  );
}

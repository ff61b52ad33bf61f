// The grammar of conformance/README.md: the rows and scripts of a file, and the words of a row.
import { readFileSync } from "node:fs";

// A mark of the byte order is no white space here.
const stripped = (text) => text.replace(/^[ \t\r\f\v]+|[ \t\r\f\v]+$/g, "");

/** The blocks of a file, without comments and blank lines: a row, or the head of a script with its lines. */
export function blocks(path) {
  const found = [];
  let isOpen = false;
  readFileSync(path, "utf8")
    .split("\n")
    .forEach((line, place) => {
      const part = stripped(line);
      if (!isOpen && (!part || part.startsWith("#"))) return;
      const goesOn = part.endsWith("\\");
      const text = goesOn ? part.slice(0, -1) : part;
      if (isOpen) {
        const block = found.at(-1);
        (block.lines.at(-1) ?? block.head).text += text;
      } else if (line.startsWith(" ")) {
        found.at(-1).lines.push({ number: place + 1, text });
      } else {
        found.push({ head: { number: place + 1, text }, lines: [] });
      }
      isOpen = goesOn;
    });
  return found;
}

/** The row of a text, cut at the first separator outside quotes: a question, and its answer with the separator. */
export function rowOf(text) {
  let inside = false;
  for (let place = 0; place < text.length; place++) {
    const sign = text[place];
    if (inside && sign === "\\") place++;
    else if (sign === '"') inside = !inside;
    else if (!inside && [" = ", " ! "].includes(text.slice(place, place + 3))) {
      return { question: stripped(text.slice(0, place)), wanted: stripped(text.slice(place)) };
    }
  }
  throw new Error(`a row without an answer: ${text}`);
}

/** The text that a word says. */
export const textOf = (word) => (word.startsWith('"') ? JSON.parse(word) : word);

/** The words of a row, as texts: a JSON string, or text without a space. */
export const wordsOf = (text) => (text.match(/"(?:[^"\\]|\\.)*"|\S+/g) ?? []).map(textOf);

/** A text as it stands in an answer: a JSON string where it has to be. */
export const quoted = (text) =>
  text && text === stripped(text) && !/["\\\x00-\x1f\x7f]/.test(text) ? text : JSON.stringify(text);

const byBytes = (left, right) => Buffer.compare(Buffer.from(left), Buffer.from(right));

/** JSON in its shortest form, with members in the byte order of their names. */
export function jsonWritten(value) {
  if (Array.isArray(value)) return `[${value.map(jsonWritten).join(",")}]`;
  if (typeof value !== "object" || value === null) return JSON.stringify(value);
  // Names that are digits have an order of their own in an object of JavaScript.
  const names = Object.keys(value).sort(byBytes);
  return `{${names.map((it) => `${JSON.stringify(it)}:${jsonWritten(value[it])}`).join(",")}}`;
}

/** The bytes of a word. */
export const bytesOf = (word) => (word === "-" ? Buffer.alloc(0) : Buffer.from(word, "hex"));

/**
 * Builds what the page shows. Texts are texts: they become nodes of text, or values of attributes that no script and no
 * address is read from.
 * @module
 */
import { printable } from "../../bindings/js/src/printing.js";

// A text of a stranger is cut behind so many characters, which is said.
const LONGEST = 240;
const ATTRIBUTES = new Set(
  [
    "class id type name value for hidden open scope start datetime title max min rows disabled",
    "checked selected spellcheck autocomplete inputmode placeholder required tabindex role viewBox",
    "preserveAspectRatio x y width height lang",
  ]
    .join(" ")
    .split(" "),
);

/** @param {Element} node */
function setAll(node, attributes) {
  for (const [name, value] of Object.entries(attributes)) {
    if (!ATTRIBUTES.has(name) && !name.startsWith("aria-") && !name.startsWith("data-")) {
      throw new TypeError(`no attribute of this page: ${name}`);
    }
    if (value === false || value === null || value === undefined) continue;
    node.setAttribute(name, value === true ? "" : String(value));
  }
  return node;
}

/** An element with attributes and what is in it: nodes, and texts. */
export function el(name, attributes = {}, ...children) {
  const node = setAll(document.createElement(name), attributes);
  node.append(...children.flat(Infinity).filter((it) => it !== null && it !== undefined && it !== false));
  return node;
}

const SVG = "http://www.w3.org/2000/svg";

/** An element of a picture. */
export function svg(name, attributes, ...children) {
  const node = setAll(document.createElementNS(SVG, name), attributes);
  node.append(...children);
  return node;
}

/** A button that does something. */
export function button(text, done, attributes = {}) {
  const node = el("button", { type: "button", ...attributes }, text);
  node.addEventListener("click", done);
  return node;
}

/** What a stranger wrote, printed: of hidden characters their numbers, and cut where it is long. */
export function quoted(text, longest = LONGEST) {
  const signs = [...String(text).slice(0, 2 * longest + 2)];
  const isLong = signs.length > longest;
  const shown = printable(signs.slice(0, longest).join(""));
  return isLong ? `${shown}… (${number(String(text).length)} characters)` : shown;
}

/** The same as an element of its own, so that its direction is its own too. */
export const said = (text, attributes = {}) => el("bdi", { class: "said", ...attributes }, quoted(text));

/** A number with marks between its thousands. */
export const number = (value) => String(value).replace(/\B(?=(\d{3})+(?!\d))/g, ",");

/** So many of a thing. */
export const many = (count, one, more = `${one}s`) => `${number(count)} ${String(count) === "1" ? one : more}`;

// So much of an id is shown, as the command does, where the whole of it was not asked for.
const SHORT = 19;

/** The id of a record, of a log, of a key or of a content. Its rest is shown where whole ids are asked for. */
export function idText(id) {
  if (!/^sha256:[0-9a-f]{64}$/.test(id)) return el("code", { class: "id" }, quoted(id, 80));
  return el("code", { class: "id" }, id.slice(0, SHORT), el("span", { class: "rest" }, id.slice(SHORT)));
}

/** Gives an element the color of a key, which says no more than its id does. */
export function colored(node, id) {
  let hue = 0;
  for (const sign of id.slice(7, 13)) hue = (hue * 16 + (Number.parseInt(sign, 16) || 0)) % 360;
  node.style.setProperty("--hue", String(hue));
  return node;
}

/** The id of a key, with a mark of its own color beside it. */
export function keyText(id) {
  return el("span", { class: "key" }, colored(el("span", { class: "mark", "aria-hidden": "true" }), id), idText(id));
}

/** A time of nanoseconds since 1970, in UTC. */
export function timeText(nanos) {
  const milliseconds = nanos / 1_000_000n;
  if (milliseconds < -62_135_596_800_000n || milliseconds > 253_402_300_799_999n) {
    return el("span", {}, `${nanos / 1_000_000_000n} seconds since 1970`);
  }
  const text = new Date(Number(milliseconds)).toISOString();
  return el("time", { datetime: text }, `${text.slice(0, 10)} ${text.slice(11, 19)} UTC`);
}

/** Puts nodes in the place of all that is in one. */
export function fill(node, ...children) {
  node.replaceChildren(...children.flat(Infinity).filter((it) => it !== null && it !== undefined && it !== false));
}

/** A row of a table: what it is of, and its cells, each a word for narrow pages and what is in it. */
export const row = (of, cells, attributes = {}) =>
  el(
    "tr",
    { role: "row", ...attributes },
    el("th", { role: "rowheader", scope: "row" }, of),
    cells.map(([word, ...children]) => el("td", { role: "cell", "data-of": word }, children)),
  );

/** A table. Its roles are said, since a narrow page lays its parts out as blocks. */
export const table = (caption, heads, rows) =>
  el(
    "table",
    { role: "table", "aria-label": caption },
    el("caption", {}, caption),
    el(
      "thead",
      { role: "rowgroup" },
      el("tr", { role: "row" }, heads.map((it) => el("th", { role: "columnheader", scope: "col" }, it))),
    ),
    el("tbody", { role: "rowgroup" }, rows),
  );

/** @param {string} id */
export const at = (id) => /** @type {HTMLElement} */ (document.getElementById(id));

// A registry's log and map by their definitions: RFC 9162, section 2.1, and docs/FORMATS.md. The library is not asked.
import { createHash } from "node:crypto";

const digest = (...parts) => {
  const hash = createHash("sha256");
  for (const part of parts) hash.update(part);
  return hash.digest();
};

/** The text of a hash. */
export const hashText = (bytes) => `sha256:${bytes.toString("hex")}`;

/** The text of a proof on a log. */
export const textOf = (hashes) => Buffer.concat(hashes).toString("base64");

const prefixed = (text) => Buffer.concat([Buffer.of(text.length), Buffer.from(text)]);

/** The leaves that pairs of words say. */
export const leavesOf = (words) =>
  Array.from({ length: words.length / 2 }, (_, it) => ({ logId: words[2 * it], recordId: words[2 * it + 1] }));

/** The hash of the leaf of a log. */
export const hashInLog = ({ logId, recordId }) => digest("\0WARG-LOG-LEAF-V0", prefixed(logId), prefixed(recordId));

const node = (left, right) => digest("\u0001", left, right);

// How many leaves of two or more stand in the left part: the greatest power of two below their number.
const leftSize = (size) => 2 ** (32 - Math.clz32(size - 1) - 1);

/** The root of a log, by section 2.1.1. */
export function logRoot(leaves) {
  if (leaves.length < 2) return leaves[0] ?? digest("");
  const half = leftSize(leaves.length);
  return node(logRoot(leaves.slice(0, half)), logRoot(leaves.slice(half)));
}

/** The path of a leaf, by section 2.1.3.1. */
export function inclusion(place, leaves) {
  if (leaves.length === 1) return [];
  const half = leftSize(leaves.length);
  const [left, right] = [leaves.slice(0, half), leaves.slice(half)];
  if (place < half) return [...inclusion(place, left), logRoot(right)];
  return [...inclusion(place - half, right), logRoot(left)];
}

/** The proof that a log begins with its first leaves, by section 2.1.4.1; from none it is empty. */
export function consistency(first, leaves, isKnown = true) {
  if (first === 0) return [];
  if (first === leaves.length) return isKnown ? [] : [logRoot(leaves)];
  const half = leftSize(leaves.length);
  const [left, right] = [leaves.slice(0, half), leaves.slice(half)];
  return first <= half
    ? [...consistency(first, left, isKnown), logRoot(right)]
    : [...consistency(first - half, right, false), logRoot(left)];
}

/** The hash of the leaf of a map. */
const hashInMap = ({ recordId }) => digest("\0WARG-MAP-LEAF-V0", prefixed(recordId));

// The root of the empty subtree of each height.
const EMPTY = [digest("")];
while (EMPTY.length <= 256) EMPTY.push(node(EMPTY.at(-1), EMPTY.at(-1)));

const keyOf = (logId) => Buffer.from(logId.slice("sha256:".length), "hex");

/** Whether a key goes right at a depth, counted from the root. */
const isRight = (key, depth) => ((key[depth >> 3] >> (7 - (depth & 7))) & 1) === 1;

/** The map of the last record of each log among leaves. */
export class SparseMap {
  #keys;
  #values = new Map();
  // Of the subtrees that have a leaf.
  #roots = new Map();

  constructor(leaves) {
    for (const leaf of leaves) this.#values.set(keyOf(leaf.logId).toString("hex"), hashInMap(leaf));
    this.#keys = [...this.#values.keys()].sort().map((it) => Buffer.from(it, "hex"));
  }

  root() {
    return this.#root(0, this.#keys);
  }

  /** The text of the proof of what the map says of a log: the short form of its 256 siblings, from the leaf up. */
  proof(logId) {
    const [key, siblings] = [keyOf(logId), []];
    let keys = this.#keys;
    for (let depth = 0; depth < 256; depth++) {
      const other = keys.filter((it) => isRight(it, depth) !== isRight(key, depth));
      siblings.unshift(this.#root(depth + 1, other));
      keys = keys.filter((it) => isRight(it, depth) === isRight(key, depth));
    }
    const [bits, others] = [Buffer.alloc(32), []];
    siblings.forEach((it, height) => {
      if (it.equals(EMPTY[height])) bits[height >> 3] |= 128 >> (height & 7);
      else others.push(it);
    });
    return textOf([bits, ...others]);
  }

  #root(depth, keys) {
    if (!keys.length) return EMPTY[256 - depth];
    if (depth === 256) return this.#values.get(keys[0].toString("hex"));
    const name = `${depth} ${keys[0].toString("hex")}`;
    if (!this.#roots.has(name)) {
      const [left, right] = [false, true].map((side) => keys.filter((it) => isRight(it, depth) === side));
      this.#roots.set(name, node(this.#root(depth + 1, left), this.#root(depth + 1, right)));
    }
    return this.#roots.get(name);
  }
}

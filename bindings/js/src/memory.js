/**
 * The module's memory: what is passed to calls is put there, and what they give is read there.
 * @module
 */
import { putText } from "./bytes.js";

/** Bytes and texts that are passed one behind the other, and behind them the length of each. */
export class Parts {
  /** @param {(Uint8Array | string)[]} parts */
  constructor(parts) {
    this.parts = parts;
    // A unit of a text takes three bytes at most.
    this.length = parts.reduce((sum, it) => sum + (typeof it === "string" ? 3 : 1) * it.length, 0);
  }
}

/** The next multiple of 8. */
const aligned = (place) => 8 * Math.ceil(place / 8);

/** How much room something takes that is passed, so that what is put behind it begins at a multiple of 8. */
function roomOf(it) {
  if (typeof it !== "object") return 0;
  return aligned(it.length) + (it instanceof Parts ? 8 * it.parts.length : 0);
}

/** How much room is taken by what is passed. */
export const roomOfAll = (passed) => passed.reduce((sum, it) => sum + roomOf(it), 0);

/** The memory of an instance. Addresses are numbers. */
export class Memory {
  #memory;
  #bytes = new Uint8Array();
  #view;

  /** @param {WebAssembly.Memory} memory */
  constructor(memory) {
    this.#memory = memory;
  }

  /** All of it. Where it grew, the buffer from before has no bytes any more. */
  get bytes() {
    const { buffer } = this.#memory;
    if (this.#bytes.buffer !== buffer) {
      this.#bytes = new Uint8Array(buffer);
      this.#view = new DataView(buffer);
    }
    return this.#bytes;
  }

  get #words() {
    return this.bytes && this.#view;
  }

  /** So many words of 64 bits. */
  words(at, count) {
    const view = this.#words;
    return Array.from({ length: count }, (_, place) => view.getBigUint64(at + 8 * place, true));
  }

  /** The same as numbers, which are below 2^53. */
  numbers(at, count) {
    const view = this.#words;
    const found = [];
    for (let place = at; found.length < count; place += 8) {
      found.push(view.getUint32(place, true) + 2 ** 32 * view.getUint32(place + 4, true));
    }
    return found;
  }

  /**
   * The words of a call that is passed this: numbers as they are; of bytes, which are put to a place and behind one
   * another, where they are and how many; of parts the same, and where their lengths are.
   */
  put(passed, at) {
    const words = [];
    const bytes = this.bytes;
    for (const it of passed) {
      if (typeof it !== "object") words.push(it);
      else if (it instanceof Parts) at = this.#putParts(it.parts, at, words);
      else {
        bytes.set(it, at);
        words.push(BigInt(at), BigInt(it.length));
        at += roomOf(it);
      }
    }
    return words;
  }

  // Adds the words of parts, and gives the place behind what was put.
  #putParts(parts, at, words) {
    const view = this.#words;
    const lengths = [];
    let end = at;
    for (const it of parts) {
      const length = typeof it === "string" ? putText(it, this.#bytes, end) : it.length;
      if (typeof it !== "string") this.#bytes.set(it, end);
      lengths.push(BigInt(length));
      end += length;
    }
    const behind = aligned(end);
    words.push(BigInt(at), BigInt(end - at), BigInt(behind));
    lengths.forEach((it, place) => view.setBigUint64(behind + 8 * place, it, true));
    return behind + 8 * lengths.length;
  }
}

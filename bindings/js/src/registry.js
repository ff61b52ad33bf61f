/**
 * The trees of a registry, for who keeps one. What decides is the library; see include/warg.h.
 * @module
 */
import { bytesOf, textOf, utf8Of } from "./bytes.js";
import { Held } from "./held.js";
import { number } from "./library.js";

const CALLS = {
  open: "registry_open",
  close: "registry_close",
  made: "RegistryTrees",
  closed: "NotOpen: the trees of the registry were closed",
};

const partsOf = (text, [end]) => [textOf(text.subarray(0, end)), textOf(text.subarray(end))];

/**
 * The trees of a registry: the log of all leaves, and the map of the heads of logs. Ids are texts of ids, roots are
 * texts of hashes, and proofs are texts of base64, as `verifyInclusion`, `verifyConsistency`, `verifyPresence` and
 * `verifyAbsence` take them under the roots and the length of the moment.
 *
 * Each call throws a `WeoldrinError` where it was refused, and the trees are then as they were. Trees that are not
 * closed are closed when they are forgotten.
 *
 * Places and lengths that are given are numbers: no memory has room for 2^53 leaves. Those that are passed may be
 * `bigint`s too. A number from 2^53 on, which may stand for its neighbour, is a `BadArgument` by the name `OutOfRange`,
 * as is all else that is not from 0 to 2^64 - 1.
 */
export class RegistryTrees extends Held {
  /** Trees of no leaves, over a library that was loaded. `open` loads one. */
  constructor(library) {
    super(library, CALLS);
  }

  /**
   * Trees of the leaves that `toBytes` gave, or of the first of them, made anew over a library or the one that is
   * shared. This costs less than to push them, since the map is made of the last record of each log alone. Throws
   * `BadArgument`, by the name `BadLength`, where the bytes are no multiple of 64.
   */
  static async fromBytes(saved, { library } = {}) {
    const leaves = bytesOf(saved).slice();
    const trees = await this.open({ library });
    try {
      trees.library.isDone("registry_resume", trees.library.status("registry_resume", [trees.#open(), leaves]));
    } catch (error) {
      trees.close();
      throw error;
    }
    return trees;
  }

  /**
   * The leaves, as `fromBytes` takes them: 64 bytes for each, in the order in which they were pushed, the 32 of its
   * log's id and the 32 of its record's. So who keeps them may as well append 64 bytes for each leaf that is pushed.
   */
  toBytes() {
    return this.library.filled("registry_save", [this.#open()], { room: 64 * this.length });
  }

  /**
   * Puts the leaf of a log's record last onto the log of the registry, and makes the record the head of its log. Gives
   * the place of the leaf, from 0. Whether the record may come next is for the log to say that has it.
   */
  push(logId, recordId) {
    return Number(this.library.told("registry_push", [this.#open(), utf8Of(logId), utf8Of(recordId)], 1)[0]);
  }

  /** How many leaves were pushed. */
  get length() {
    return Number(this.library.told("registry_length", [this.#open()], 1)[0]);
  }

  /** The roots of the log of all leaves and of the map. */
  roots() {
    const [logRoot, mapRoot] = this.#parts("registry_roots");
    return Object.freeze({ logRoot, mapRoot });
  }

  /** The checkpoint of the moment with its time, in seconds since 1970, as `checkpointMessage` takes it. */
  checkpoint(timestamp) {
    return Object.freeze({ ...this.roots(), logLength: BigInt(this.length), timestamp: number(timestamp) });
  }

  /** The proof that the leaf at a place, from 0, is in the log of the registry; null if there is none there. */
  inclusion(place) {
    return this.#proof("registry_inclusion", place);
  }

  /** The proof that the log of the registry begins with its first leaves; null if it has not that many. */
  consistency(firstLength) {
    return this.#proof("registry_consistency", firstLength);
  }

  /**
   * The id of a log's last record and the proof of its presence; of a log that has no leaf the id is null, and the
   * proof is of its absence.
   */
  head(logId) {
    const [recordId, proof] = this.#parts("registry_head", logId);
    return Object.freeze({ recordId: recordId || null, proof });
  }

  // Calls of the library

  // The handle of trees, and of nothing else that is held.
  #open() {
    return this.handle;
  }

  #proof(name, count) {
    const text = this.library.filled(name, [this.#open(), number(count)]);
    return text === null ? null : textOf(text);
  }

  // Two texts, one behind the other.
  #parts(name, ...words) {
    return this.library.filled(name, [this.#open(), ...words.map(utf8Of)], { beside: 2, read: partsOf });
  }
}

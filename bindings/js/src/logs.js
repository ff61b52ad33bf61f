/**
 * Logs of packages and of operators. What decides is the library; see include/warg.h.
 * @module
 */
import { bytesOf, textIn, textOf, utf8Of } from "./bytes.js";
import { BadArgument } from "./errors.js";
import { Held } from "./held.js";
import { BAD_ARGUMENT, GREATEST, TOO_SMALL, number, wordsOf } from "./library.js";
import { Parts } from "./memory.js";
import { KINDS, Kind, RELATIONS, Relation, kindOf } from "./values.js";

const NANOS = 1_000_000_000n;
// An error's text has so many bytes beside what it quotes of an envelope, and fewer.
const SENTENCE = 1024;

const CALLS = { open: "open", close: "close", made: "PackageLog", closed: "NotOpen: the log was closed" };

const timeOf = (seconds, nanos) => BigInt.asIntN(64, seconds) * NANOS + nanos;

const lastOf = ([seconds, count, nanosAndVersion, isCounted]) =>
  Object.freeze({
    timestamp: timeOf(seconds, nanosAndVersion & 0xffffffffn),
    version: Number(nanosAndVersion >> 32n),
    count: (isCounted & 0xffffffffn) !== 0n ? Number(count) : null,
  });

function releaseOf(text, [version, record, key, state, seconds, yankedSeconds, nanos, isYanked]) {
  const parts = [];
  let at = 0;
  for (const length of [version, record, key, state]) {
    parts.push(textOf(text.subarray(at, at + Number(length))));
    at += Number(length);
  }
  const yanked = (isYanked & 0xffffffffn) !== 0n;
  return Object.freeze({
    version: parts[0],
    recordId: parts[1],
    by: parts[2],
    timestamp: timeOf(seconds, nanos & 0xffffffffn),
    content: yanked ? null : parts[3],
    yanked,
    yankedBy: yanked ? parts[3] : null,
    yankedTimestamp: yanked ? timeOf(yankedSeconds, nanos >> 32n) : null,
  });
}

const questionOf = (bytes, [key, message]) =>
  Object.freeze({
    key: textOf(bytes.subarray(0, key)),
    message: bytes.slice(key, key + message),
    signature: textOf(bytes.subarray(key + message)),
  });

const recordOf = (bytes, [envelope]) =>
  Object.freeze({ envelope: bytes.slice(0, envelope), id: textOf(bytes.subarray(envelope)) });

const nothingOf = () => undefined;

function* byPlace(at) {
  let found;
  for (let place = 0; (found = at(place)) !== null; place++) yield found;
}

/**
 * A log of either kind; make a `PackageLog` or an `OperatorLog`.
 *
 * Each call throws a `WeoldrinError` where it was refused, and the log is then as it was. A log that is not closed is
 * closed when it is forgotten.
 */
export class Log extends Held {
  /** The kind of the class's logs. */
  static KIND = Kind.PACKAGE;

  /** A log of no records, over a library that was loaded. `open` loads one. */
  constructor(library) {
    if (new.target === Log) throw new TypeError("a log is a PackageLog or an OperatorLog");
    super(library, CALLS, [KINDS.indexOf(new.target.KIND)]);
  }

  /**
   * A log that goes on from a saved state. It has no records: `length`, `record`, `chain` and `compare` throw
   * `BadArgument`. Where the number of its records was kept beside the state, hand it in as `count`: `last` goes on
   * counting from it. Throws `BadArgument`, with the fault's name, where the text is no saved state of this kind, or no
   * log has that number.
   */
  static async fromJson(saved, { library, count } = {}) {
    const text = utf8Of(saved);
    const [name, counted] = count === undefined ? ["resume", []] : ["resume_counted", [number(count)]];
    const log = await this.open({ library });
    try {
      log.#said(name, [KINDS.indexOf(log.kind), text, ...counted]);
    } catch (error) {
      log.close();
      throw error;
    }
    return log;
  }

  /** The log's kind. */
  get kind() {
    return this.constructor.KIND;
  }

  // Appending

  /**
   * What has to be verified before the envelope's record can be appended. Changes nothing. The record is lawful exactly
   * if the signature belongs. Throws `Refused` where no signature could help.
   */
  ask(envelope) {
    const bytes = bytesOf(envelope);
    return this.#said("ask", [bytes], { beside: 2, room: bytes.length + SENTENCE, read: questionOf });
  }

  /**
   * Appends the envelope's record by the answer to its question. The answer to any other question is refused.
   *
   * An answer is true or false and nothing else: whatever a verifier returns in their place, such as a number or a
   * promise, is a `TypeError`, and says nothing of the signature.
   */
  appendAnswered(envelope, question, belongs) {
    if (typeof belongs !== "boolean") {
      throw new TypeError(`whether a signature belongs is true or false, and not a ${typeof belongs}`);
    }
    const parts = new Parts([textIn(question.key), bytesOf(question.message), textIn(question.signature)]);
    const bytes = bytesOf(envelope);
    this.#said("append", [bytes, parts, Number(belongs)], { room: bytes.length + SENTENCE, read: nothingOf });
  }

  /**
   * Appends the envelope's record if its signature belongs, which the library verifies: ECDSA P-256. Where all of a
   * record is lawful but its signature, and that is by a key of another algorithm, `UnknownAlgorithm` is thrown.
   */
  appendSigned(envelope) {
    const bytes = bytesOf(envelope);
    this.#said("append_signed", [bytes], { room: bytes.length + SENTENCE, read: nothingOf });
  }

  /**
   * Appends the envelope's record if its signature belongs. The library verifies it, as `appendSigned`, or `verify`
   * where there is one: it gets the question, and gives whether the signature belongs, or a promise of that.
   *
   * The log may be used by others while `verify` runs. If the record is no longer the next one then, it is refused.
   */
  async append(envelope, verify) {
    if (verify === undefined || verify === null) {
      this.appendSigned(envelope);
      return;
    }
    // Who writes to the bytes while `verify` runs changes what is appended no more than what was asked.
    const bytes = bytesOf(envelope).slice();
    const question = this.ask(bytes);
    this.appendAnswered(bytes, question, await verify(question));
  }

  // Records

  /** The id of the last record; null before any. */
  head() {
    return this.#text("head");
  }

  /** The time and the version of the last record, and how many records there are; null before any. */
  last() {
    const said = this.library.told("head_of", [this.#open()], 4);
    return said && lastOf(said);
  }

  /** How many records there are. A resumed log does not know, and throws `BadArgument`. */
  get length() {
    return Number(this.library.told("length", [this.#open()], 1)[0]);
  }

  /** The record at a place, from 0; null if the log has none there. */
  record(place) {
    const whole = typeof place === "bigint" ? place : Number.isInteger(place) ? BigInt(place) : -1n;
    if (whole < 0n) throw new RangeError("places are whole numbers from 0");
    if (whole > GREATEST) return null;
    return this.#said("record", [whole], { beside: 1, read: recordOf });
  }

  /** The records in order. */
  records() {
    return byPlace((place) => this.record(place));
  }

  // Keys

  /** Whether a key id holds a permission. Throws `BadArgument` where logs of this kind have none of that name. */
  holds(keyId, permission) {
    const passed = [this.#open(), utf8Of(keyId), utf8Of(permission)];
    return this.library.isDone("holds", this.library.status("holds", passed));
  }

  /** The permissions that a key id holds; null if no record spoke of the key id. */
  permissions(keyId) {
    const text = this.#text("permissions", keyId);
    return text === null ? null : text.split(" ").filter((it) => it !== "");
  }

  /** The text of a key; null if the log does not know it. */
  publicKey(keyId) {
    return this.#text("key", keyId);
  }

  /**
   * The entries by which a key id came to hold a permission, from the first one of the log on; null if it does not hold
   * it.
   */
  chain(keyId, permission) {
    const words = [utf8Of(keyId), utf8Of(permission)];
    const handle = this.#open();
    let room = 16;
    for (;;) {
      const at = this.library.taken(16 * room);
      try {
        const after = [at, BigInt(room), this.library.beside];
        const status = this.library.status("chain", [handle, ...words], after);
        const [used] = this.library.numbers(1);
        // Where logs of this kind have no such permission, this says so.
        if (status === BAD_ARGUMENT) this.holds(keyId, permission);
        if (status !== TOO_SMALL) {
          if (!this.library.isDone("chain", status)) return null;
          const found = this.library.numbers(2 * used, at);
          return Array.from({ length: used }, (_, it) => ({ record: found[2 * it], entry: found[2 * it + 1] }));
        }
        room = used;
      } finally {
        if (!this.library.isGivenUp) this.library.givenBack(at);
      }
    }
  }

  // Two logs, and saved states

  /**
   * Compares the records of this log, the left one, with those of another, of the same library. A resumed log has none
   * to compare.
   */
  compare(other) {
    if (!(other instanceof Log)) throw new TypeError("a log is wanted to compare with");
    if (other === this) {
      void this.length;
      return Object.freeze({ relation: Relation.SAME, left: 0, right: 0 });
    }
    if (other.kind !== this.kind) throw new BadArgument("WrongKind: one log is of a package, and one of operators");
    if (other.library !== this.library) {
      throw new BadArgument("OtherLibrary: the logs are of two libraries: make them over one");
    }
    const [is, left, right] = this.library.told("compare", [this.#open(), other.#open()], 3);
    const relation = RELATIONS[Number(is & 0xffffffffn)];
    return Object.freeze({ relation, left: Number(left), right: Number(right) });
  }

  /**
   * The state as a text of JSON: all that further records are judged by and that is looked up, but no records. Throws
   * `BadArgument` with the name `TimeBeforeEpoch` where a time of the state lies before 1970, which its text can't say.
   */
  toJson() {
    const text = this.#text("save");
    if (text === null) throw new BadArgument("TimeBeforeEpoch: a time of the state lies before 1970");
    return text;
  }

  // Calls of the library

  // The handle of a log, and of nothing else that is held.
  #open() {
    return this.handle;
  }

  #said(name, passed, kept) {
    return this.library.filled(name, [this.#open(), ...passed], kept);
  }

  #text(name, ...words) {
    const said = this.#said(name, words.map(utf8Of));
    return said === null ? null : textOf(said);
  }

  // For the classes of the kinds: what a call gives with words beside it.
  static said(log, name, passed, words) {
    const text = log.#said(name, passed, { beside: words });
    return text === null ? null : [text, log.library.words(words)];
  }

  // For the same: whether a call holds.
  static isShown(log, name, passed) {
    return log.library.isShown(name, [log.#open(), ...passed]);
  }
}

/** The log of a package. */
export class PackageLog extends Log {
  static KIND = Kind.PACKAGE;

  /** The release that is not yanked, meets the requirement (as ">=1.2, <2") and has the greatest version; or null. */
  latest(requirement) {
    return this.#found("latest", utf8Of(requirement));
  }

  /** The release of a version, yanked or not; or null. */
  release(version) {
    return this.#found("release", utf8Of(version));
  }

  /** The releases in their order; those of a resumed log come first, by the bytes of their versions. */
  releases() {
    return byPlace((place) => this.#found("releases", BigInt(place)));
  }

  #found(name, passed) {
    const said = Log.said(this, name, [passed], 8);
    return said && releaseOf(...said);
  }
}

/** The log of a registry's operators. */
export class OperatorLog extends Log {
  static KIND = Kind.OPERATOR;

  /** What a namespace is; null if the log has none of that name. */
  namespaceState(name) {
    const said = Log.said(this, "namespace", [utf8Of(name)], 1);
    if (said === null) return null;
    const isImported = (said[1][0] & 0xffffffffn) !== 0n;
    return Object.freeze({ importedFrom: isImported ? textOf(said[0]) : null });
  }

  /**
   * Whether a checkpoint with its time is signed by a key that the log lets sign: one that holds "commit".
   *
   * Throws `BadArgument` where a root is not the text of one, where a number is not from 0 to 2^64 - 1, and where the
   * key may sign and the signature's text can't be read. Throws `UnknownAlgorithm` where the key may sign and its
   * algorithm is not `ecdsa-p256`: verify the signature of `checkpointMessage` by other means then.
   */
  verifyCheckpoint(checkpoint, keyId, signature) {
    return Log.isShown(this, "verify_checkpoint", [...wordsOf(checkpoint), utf8Of(keyId), utf8Of(signature)]);
  }
}

/** The class of the logs of a kind. */
export const classOf = (kind) => (kindOf(kind) === Kind.PACKAGE ? PackageLog : OperatorLog);

/** A log of no records, of a kind, over a library or the one that is shared. */
export const logOf = (kind, options) => classOf(kind).open(options);

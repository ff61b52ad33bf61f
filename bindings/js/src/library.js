/**
 * The library's calls, as include/warg.h declares them, over an instance of its module.
 * @module
 */
import { bytesOf, textOf, utf8Of } from "./bytes.js";
import { moduleOf } from "./engine.js";
import {
  BadArgument,
  NoEnvelope,
  NoLibrary,
  NotOpen,
  OutOfMemory,
  Refused,
  Trapped,
  UnknownAlgorithm,
  WeoldrinError,
} from "./errors.js";
import { Memory, roomOfAll } from "./memory.js";
import {
  BEGINNING_COMPARISONS,
  CHECKPOINT_COMPARISONS,
  HEAD_COMPARISONS,
  KINDS,
  LEAF_COMPARISONS,
  kindOf,
} from "./values.js";

export const [OK, TOO_SMALL, REFUSED, NONE, BAD_ARGUMENT] = [0, 3, 5, 6, 7];

/** The greatest number that a call takes. */
export const GREATEST = 2n ** 64n - 1n;

// The trees on which proofs are.
const [LOG_TREE, MAP_TREE] = [0, 1];
// Where a call writes how many bytes it gave, and behind it what else it gives: 64 bytes at most.
const [USED, BESIDE] = [8, 64];
// So much room there is for what calls give, and at most so much is kept when a call that gave more has ended.
const [ROOM, KEPT_ROOM] = [4096, 1 << 20];

const RESUMED = "Resumed: the log was resumed, and its records are elsewhere";
// What is said of a bad argument where the library says nothing of it.
const MISUSES = {
  append: "BadQuestion: the parts are those of no question",
  chain: RESUMED,
  checkpoint_message: "BadText: a root is not the text of one",
  compare: RESUMED,
  holds: "UnknownPermission: logs of this kind have no such permission",
  latest: "BadRequirement: the text is no requirement of versions, such as >=1.2, <2",
  leaf: "BadText: an id is not the text of one",
  length: RESUMED,
  record: RESUMED,
  registry_head: "BadText: an id is not the text of one",
  registry_push: "BadText: an id is not the text of one",
  registry_resume: "BadLength: the bytes are no multiple of 64",
  release: "BadVersion: the text is no version, such as 1.2.0",
  verify: "BadText: the text of the key or of the signature can't be read",
  verify_checkpoint: "BadText: a root is not the text of one, or the key's id or the signature can't be read",
};
const THROWN = [, NotOpen, OutOfMemory, , NoEnvelope, Refused, , BadArgument, UnknownAlgorithm];

/**
 * What a call of this name is refused for, with what the library says of it.
 * @param {string} name
 * @param {number} status
 * @param {string} [text]
 */
function thrown(name, status, text = "") {
  const Thrown = THROWN[status];
  if (!Thrown) return new NoLibrary(`NoLibrary: the library answers ${name} by a status that is none: ${status}`);
  return new Thrown(text || (status === BAD_ARGUMENT ? MISUSES[name] : undefined));
}

/** What is kept of bytes that a call gave: all of them. */
const copyOf = (bytes) => bytes.slice();

/** A piece of the module's memory, which is taken anew where more is needed. */
class Room {
  /**
   * @param {(size: number) => bigint} take
   * @param {(at: bigint) => void} give
   */
  constructor(take, give) {
    Object.assign(this, { take, give, at: 0n, size: 0 });
  }

  /** @param {number} size */
  atLeast(size) {
    if (this.size < size) {
      this.giveBack();
      this.at = this.take(size);
      this.size = size;
    }
    return this.at;
  }

  giveBack() {
    if (this.size) this.give(this.at);
    this.size = 0;
  }
}

/**
 * The proved library: an instance of its module, with its memory. Logs and trees are made over one, and two logs that
 * are compared are of the same. Its other calls stand here, and look at their arguments alone.
 *
 * Where the engine's stack ends in a call, or another trap does, that call throws `Trapped`, and the library is given
 * up: its logs and trees are closed, and each further call throws `NotOpen`.
 */
export class Library {
  #calls;
  #memory;
  #given;
  #room;
  #beside;
  #trap;
  // Whether a call is under way. One that ended in any other way than by an answer leaves this so.
  #isCalled = false;

  /** @param {WebAssembly.Module} module */
  constructor(module) {
    try {
      this.#calls = new WebAssembly.Instance(module, {}).exports;
      this.#memory = new Memory(this.#calls.memory);
      for (const it of ["host_alloc", "warg_open"]) {
        if (typeof this.#calls[it] !== "function") throw new TypeError(`it has no call ${it}`);
      }
    } catch (error) {
      throw new NoLibrary(`NoLibrary: the library can't be begun: ${error}`);
    }
    this.module = module;
    const ways = [(size) => this.#take(size), (at) => this.#run("host_free", [at])];
    this.#given = new Room(...ways);
    this.#room = new Room(...ways);
    this.#beside = this.taken(USED + BESIDE);
  }

  /**
   * A library of its own: of an address, a response, bytes or a module, and of the package's own file where no source
   * is given. Memory that it may not have beyond `maximum` bytes is refused. Throws `NoLibrary`.
   */
  static async load({ source, maximum } = {}) {
    const library = new Library(await moduleOf(source));
    if (maximum !== undefined) library.limit(maximum);
    return library;
  }

  /** Whether a call trapped, so that the library is given up. */
  get isGivenUp() {
    return this.#isCalled || this.#trap !== undefined;
  }

  /** How much memory the module has, and how much of it is in use, in bytes. */
  memory() {
    return { size: this.#memory.bytes.length, used: this.#whole(() => Number(this.#run("host_used", []))) };
  }

  /** @param {number} bytes how much memory the module may have */
  limit(bytes) {
    if (!Number.isSafeInteger(bytes) || bytes <= 0) throw new RangeError("a limit is a whole number of bytes above 0");
    this.#whole(() => this.#run("host_limit", [BigInt(bytes)]));
  }

  /** The library's version. */
  version() {
    return textOf(this.filled("version", []));
  }

  /** The id of an envelope's record. The record need not be lawful. Throws `NoEnvelope`. */
  recordId(kind, envelope) {
    return textOf(this.filled("id", [KINDS.indexOf(kindOf(kind)), bytesOf(envelope)]));
  }

  /**
   * The id of a log, which is made of its kind and its name: a package's log has the package's, as "example:math", and
   * the log of operators has none. Throws `BadArgument`, by the name `BadName`, for any other name.
   */
  logId(kind, name = "") {
    return textOf(this.filled("log_id", [KINDS.indexOf(kindOf(kind)), utf8Of(name)]));
  }

  /** The leaf of a log's record in the registry's log: the bytes that are hashed, with a zero before them. */
  leaf(logId, recordId) {
    return this.filled("leaf", [utf8Of(logId), utf8Of(recordId)]);
  }

  /**
   * The message that a key of the registry signs of a checkpoint with its time. Throws `BadArgument` where a root is
   * not the text of one, or a number is not from 0 to 2^64 - 1.
   */
  checkpointMessage(checkpoint) {
    return this.filled("checkpoint_message", wordsOf(checkpoint));
  }

  /**
   * Whether the signature belongs to the message under the key, by their texts. Throws `BadArgument` where the key's
   * text can't be read, `UnknownAlgorithm` where its algorithm is not `ecdsa-p256`, and otherwise `BadArgument` where
   * the signature's text can't be read.
   */
  verify(key, message, signature) {
    return this.isShown("verify", [utf8Of(key), bytesOf(message), utf8Of(signature)]);
  }

  /** Whether the leaf of a log's record stands at a place of the registry's log, of this length and root. */
  verifyInclusion(logId, recordId, place, length, root, proof) {
    return this.#shows("verify_inclusion", LOG_TREE, [logId, recordId, number(place), number(length), root, proof]);
  }

  /** Whether the registry's log of `newLength` leaves begins with the one of `oldLength` leaves. */
  verifyConsistency(oldLength, oldRoot, newLength, newRoot, proof) {
    const passed = [number(oldLength), oldRoot, number(newLength), newRoot, proof];
    return this.#shows("verify_consistency", LOG_TREE, passed);
  }

  /** Whether the registry's map says that a log's last record is this one. */
  verifyPresence(logId, recordId, root, proof) {
    return this.#shows("verify_presence", MAP_TREE, [logId, recordId, root, proof]);
  }

  /** Whether the registry's map says nothing of a log. */
  verifyAbsence(logId, root, proof) {
    return this.#shows("verify_absence", MAP_TREE, [logId, root, proof]);
  }

  /**
   * How a checkpoint of a registry compares with an older one, as one of `CheckpointComparison`, by a proof as
   * `verifyConsistency` takes it, which is looked at where the newer log is longer. Their times are not compared, and
   * whether they are signed is for an `OperatorLog` to say.
   */
  compareCheckpoints(oldCheckpoint, newCheckpoint, proof = "") {
    const [older, newer] = [oldCheckpoint, newCheckpoint].map(({ logLength, logRoot, mapRoot }) => [
      number(logLength),
      logRoot,
      mapRoot,
    ]);
    const passed = [...older, ...newer, proof];
    return CHECKPOINT_COMPARISONS[this.#compared("compare_checkpoints", LOG_TREE, passed, [proof])];
  }

  /**
   * How the leaves compare that are shown at one place of a registry's log under two checkpoints, as two clients may
   * have been shown them, as one of `LeafComparison`. Neither checkpoint has to be the older one.
   */
  compareLeaves(place, oldLeaf, newLeaf) {
    const [older, newer] = [oldLeaf, newLeaf].map(({ checkpoint: { logLength, logRoot }, logId, recordId, proof }) => [
      number(logLength),
      logRoot,
      logId,
      recordId,
      proof,
    ]);
    const passed = [number(place), ...older, ...newer];
    return LEAF_COMPARISONS[this.#compared("compare_leaves", LOG_TREE, passed, [oldLeaf.proof, newLeaf.proof])];
  }

  /**
   * How two answers about the last record of one log compare that are shown under one root of a registry's map, as two
   * clients may have been shown them, as one of `HeadComparison`: each a record's id with its proof as `verifyPresence`
   * takes it, or null with one as `verifyAbsence` takes it. Throws `BadArgument` where a record's id is "".
   */
  compareHeads(mapRoot, logId, one, other) {
    const proofs = [one.proof, other.proof];
    if (one.recordId === "" || other.recordId === "") throw this.#misuse(MAP_TREE, proofs);
    const words = [one, other].flatMap(({ recordId, proof }) => [recordId === null ? "" : recordId, proof]);
    return HEAD_COMPARISONS[this.#compared("compare_heads", MAP_TREE, [mapRoot, logId, ...words], proofs)];
  }

  /**
   * How two checkpoints of a registry compare that the log of a newer one is shown to begin with, as two clients may
   * have been shown them, as one of `BeginningComparison`. Of the newer one's map nothing is asked, and their times are
   * not compared.
   */
  compareBeginnings(newCheckpoint, one, other) {
    const words = [one, other].flatMap(({ checkpoint: { logLength, logRoot, mapRoot }, proof }) => [
      number(logLength),
      logRoot,
      mapRoot,
      proof,
    ]);
    const passed = [number(newCheckpoint.logLength), newCheckpoint.logRoot, ...words];
    return BEGINNING_COMPARISONS[this.#compared("compare_beginnings", LOG_TREE, passed, [one.proof, other.proof])];
  }

  #shows(name, tree, passed) {
    const status = this.status(name, wordsIn(passed));
    if (status === BAD_ARGUMENT) throw this.#misuse(tree, passed.slice(-1));
    return status === REFUSED ? false : this.isDone(name, status);
  }

  // The case of a comparison that has these proofs on the tree.
  #compared(name, tree, passed, proofs) {
    const words = wordsIn(passed);
    let status;
    const [found] = this.#whole(() => {
      status = this.#run(`warg_${name}`, [...this.#passed(words), this.beside]);
      return this.words(1);
    });
    if (status === BAD_ARGUMENT) throw this.#misuse(tree, proofs);
    this.isDone(name, status);
    // It has 32 bits.
    return Number(BigInt.asUintN(32, found));
  }

  // What is wrong with the arguments of a call: the fault of the first of its proofs that has one, or another text.
  #misuse(tree, proofs) {
    for (const it of proofs) {
      const fault = this.filled("proof_fault", [tree, utf8Of(it)]);
      if (fault) return new BadArgument(textOf(fault));
    }
    return new BadArgument("BadText: a root or an id is not the text of one");
  }

  // The rest is for the package's own files.

  /** A handle that leads to nothing: its address. */
  newHandle() {
    return this.#whole(() => {
      const at = this.#take(16);
      this.#memory.bytes.fill(0, Number(at), Number(at) + 16);
      return at;
    });
  }

  /** Closes what a handle leads to, by a call, and gives both back. A library that is given up is left alone. */
  closeHandle(at, name) {
    if (this.isGivenUp) return;
    this.#whole(() => {
      this.#run(`warg_${name}`, [at]);
      this.#run("host_free", [at]);
    });
  }

  /** Room of the module's memory. Throws `OutOfMemory`. */
  taken(size) {
    return this.#whole(() => this.#take(size));
  }

  givenBack(at) {
    this.#whole(() => this.#run("host_free", [at]));
  }

  /**
   * The status of a call that writes no text. Bytes and arrays of words are copied into the module's memory; a bytes'
   * length is passed behind its address.
   */
  status(name, passed, after = []) {
    return this.#whole(() => this.#run(`warg_${name}`, [...this.#passed(passed), ...after]));
  }

  /** So many words that a call gives which writes no text, had in one piece with it; null where it says "none". */
  told(name, passed, count) {
    return this.#whole(() => {
      const status = this.#run(`warg_${name}`, [...this.#passed(passed), this.beside]);
      return this.isDone(name, status) ? this.words(count) : null;
    });
  }

  /** Whether a call that writes no text was done, and not answered by "none". */
  isDone(name, status) {
    if (status === OK || status === NONE) return status === OK;
    throw thrown(name, status);
  }

  /** Whether a call that writes no text was done, and not refused. */
  isShown(name, passed) {
    const status = this.status(name, passed);
    return status === REFUSED ? false : this.isDone(name, status);
  }

  /**
   * What a call writes that gives bytes, or null where it says that there are none. An error's text finds `room`, and
   * at least 4096 bytes. A call that gives so many words `beside` bytes is passed, at the end, where to write them.
   * `read` makes what is kept of the bytes, which are the module's, and of these words as numbers: else it is a copy of
   * the bytes.
   */
  filled(name, passed, { beside = 0, room = 0, read = copyOf } = {}) {
    return this.#whole(() => {
      const words = this.#passed(passed);
      const place = words.length;
      words.push(0n, 0n, this.#beside);
      if (beside) words.push(this.beside);
      let status, used;
      let size = Math.max(room, ROOM);
      do {
        words[place] = this.#room.atLeast(size);
        words[place + 1] = BigInt(this.#room.size);
        status = this.#run(`warg_${name}`, words);
        [used] = this.numbers(1, this.#beside);
        size = used;
      } while (status === TOO_SMALL);
      const from = Number(this.#room.at);
      const found = this.#memory.bytes.subarray(from, from + used);
      const kept = status === OK ? read(found, this.numbers(beside)) : status === NONE ? null : textOf(found);
      for (const it of [this.#given, this.#room]) if (it.size > KEPT_ROOM) it.giveBack();
      if (status === OK || status === NONE) return kept;
      throw thrown(name, status, kept);
    });
  }

  /** Where a call writes what it gives beside bytes. */
  get beside() {
    return this.#beside + BigInt(USED);
  }

  /** So many words of 64 bits that a call gave beside bytes. */
  words(count) {
    return this.#memory.words(Number(this.beside), count);
  }

  /** The same as numbers, or those at another address. */
  numbers(count, at = this.beside) {
    return this.#memory.numbers(Number(at), count);
  }

  #passed(passed) {
    const at = this.#given.atLeast(Math.max(roomOfAll(passed), ROOM));
    return this.#memory.put(passed, Number(at));
  }

  #take(size) {
    const at = this.#run("host_alloc", [BigInt(size)]);
    if (at === 0n) throw new OutOfMemory();
    return at;
  }

  #run(name, words) {
    try {
      return this.#calls[name](...words);
    } catch (error) {
      this.#trap = error;
      throw new Trapped(error);
    }
  }

  // What is done in one piece. Where anything but an answer or a refusal ends it, as where the engine's stack does in
  // the midst of this very function, no one knows what was done: the mark stays, and the library is given up.
  #whole(done) {
    if (this.isGivenUp) throw new NotOpen("NotOpen: the library trapped before, and its logs are closed");
    this.#isCalled = true;
    try {
      const found = done();
      this.#isCalled = false;
      return found;
    } catch (error) {
      if (error instanceof WeoldrinError) {
        this.#isCalled = false;
        throw error;
      }
      this.#trap = error;
      throw new Trapped(error);
    }
  }
}

/** A place or a length: a whole number from 0 to 2^64 - 1. */
export function number(value) {
  const whole = typeof value === "bigint" ? value : Number.isSafeInteger(value) ? BigInt(value) : -1n;
  if (whole < 0n || whole > GREATEST) throw new BadArgument(`OutOfRange: ${value} is not from 0 to ${GREATEST}`);
  return whole;
}

/** What calls are passed of texts, and of numbers that they take. */
const wordsIn = (passed) => passed.map((it) => (typeof it === "bigint" ? it : utf8Of(it)));

/** What calls are passed of a checkpoint with its time. Throws `BadArgument` where a number is none that they take. */
export const wordsOf = ({ logRoot, logLength, mapRoot, timestamp }) => [
  number(logLength),
  utf8Of(logRoot),
  utf8Of(mapRoot),
  number(timestamp),
];

let shared;

/** The library that serves where none is handed in; another one where that was given up. Throws `NoLibrary`. */
export async function sharedLibrary() {
  const had = shared;
  if (had === undefined || (await had.catch(() => ({ isGivenUp: true }))).isGivenUp) {
    // Of many that wait here the first one loads it.
    if (shared === had) shared = Library.load();
  }
  return shared;
}

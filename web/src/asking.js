/**
 * What a registry answers, request by request, in the forms of docs/HTTP.md, in the page's thread. Nothing of it is
 * believed here but its form, and no more of it is read than has room in the page.
 * @module
 */
import { BadArgument, checkpoints } from "../../bindings/js/src/index.js";
import { textOf } from "../../bindings/js/src/bytes.js";
import { BadLine } from "../../bindings/js/src/faults.js";
import { envelopesOf } from "../../bindings/js/src/lines.js";
import { LONGEST } from "./checkpoints.js";
import { MOST, bytesOf } from "./files.js";

// So long an answer is waited for, the whole of it.
const SECONDS = 60;
const HASH = /^sha256:[0-9a-f]{64}$/;
const LEAF = /^(sha256:[0-9a-f]{64}) (sha256:[0-9a-f]{64})$/;

/** What a registry is told of: a name, which `weoldrin fetch` has too where it has the case, and a sentence. */
export class Told extends Error {
  /** @param {string} name @param {string} sentence */
  constructor(name, sentence) {
    super(sentence);
    this.name = name;
  }
}

const badAnswer = (sentence) => new Told("bad answer", sentence);

/** A registry refuses what it was asked; `problem` is the error's name. */
export class Problem extends Told {
  /** @param {number} status @param {string} problem @param {string} detail */
  constructor(status, problem, detail) {
    super("refused", `the registry refuses: ${status} ${problem}: ${detail}`);
    this.problem = problem;
  }
}

/** A member of an object, of that type. */
function member(value, name, type) {
  const found = typeof value === "object" && value !== null && Object.hasOwn(value, name) ? value[name] : undefined;
  if (typeof found !== type) throw badAnswer(`the answer has no ${name} as it has to be`);
  return found;
}

function placeAt(value, name) {
  const found = member(value, name, "number");
  if (!Number.isSafeInteger(found) || found < 0) throw badAnswer(`the answer's ${name} is no place`);
  return found;
}

function hashAt(value, name) {
  const found = member(value, name, "string");
  if (!HASH.test(found)) throw badAnswer(`the answer's ${name} is no hash`);
  return found;
}

/** The signed checkpoint of an answer. A number that JavaScript does not have to the last digit is refused. */
function checkpointIn(value) {
  const said = member(value, "checkpoint", "object");
  const numbers = [said?.contents?.logLength, said?.contents?.timestamp];
  if (!numbers.every(Number.isSafeInteger)) throw badAnswer("a number of its checkpoint is none, or too great");
  try {
    return checkpoints.parseSigned(JSON.stringify(said));
  } catch (error) {
    if (error instanceof BadArgument) throw badAnswer(`its checkpoint is none: ${error.sentence}`);
    throw error;
  }
}

function textIn(bytes) {
  try {
    return textOf(bytes);
  } catch {
    throw badAnswer("the answer is no UTF-8");
  }
}

function jsonOf(bytes) {
  const text = textIn(bytes);
  try {
    return JSON.parse(text);
  } catch {
    throw badAnswer("the answer is no JSON");
  }
}

function envelopesIn(bytes) {
  try {
    return envelopesOf(bytes);
  } catch (error) {
    throw error instanceof BadLine ? badAnswer("a line of the answer is no envelope in hex") : error;
  }
}

/** What takes a refusal by one of these names for an answer of nothing. */
const nothing =
  (...names) =>
  (error) => {
    if (error instanceof Problem && names.includes(error.problem)) return null;
    throw error;
  };

function pathOf(name, words) {
  const given = Object.entries(words).filter(([, value]) => value !== undefined);
  return `v1/${name}?${given.map(([word, value]) => `${word}=${value}`).join("&")}`;
}

/** The bytes of an answer, or null where there are more than these, and its status. */
async function answerOf(address, most, signal) {
  const words = { credentials: "omit", referrerPolicy: "no-referrer", redirect: "manual", cache: "no-store", signal };
  const response = await fetch(address, words);
  if (response.type === "opaqueredirect") throw badAnswer("the answer leads elsewhere, which is not followed");
  const bytes = await bytesOf(response, most);
  return { status: response.status, bytes: bytes && new Uint8Array(bytes) };
}

/** A registry that is asked, until `signal` ends that. */
export class Registry {
  #address;
  #signal;

  /** @param {string} address @param {AbortSignal} signal */
  constructor(address, signal) {
    this.#address = address;
    this.#signal = signal;
  }

  /**
   * What the map of the newest checkpoint says of a log, or of the checkpoint of that `length`, and that the
   * registry's log goes on from its first `from` leaves.
   */
  async head(logId, { length, from } = {}) {
    const value = await this.#json(pathOf("proof/map", { log: logId, length, from }));
    const checkpoint = checkpointIn(value);
    if (member(value, "logId", "string") !== logId) {
      throw new Told("wrong name", `the answer is of another log than ${logId}, which was asked for`);
    }
    return {
      checkpoint,
      recordId: value.recordId === null ? null : hashAt(value, "recordId"),
      proof: member(value, "proof", "string"),
      consistency: from === undefined ? null : member(value, "consistency", "string"),
    };
  }

  /** The newest checkpoint. */
  async checkpoint() {
    return checkpointIn({ checkpoint: await this.#json("v1/checkpoint") });
  }

  /** Where the leaf of a record is said to stand; null where there is said to be none. */
  async leaf(logId, recordId) {
    const asked = this.#json(pathOf("leaf", { log: logId, record: recordId }));
    const value = await asked.catch(nothing("NoLog", "NoRecord"));
    return value === null ? null : placeAt(value, "registryIndex");
  }

  /** The proof that a leaf stands at a place, under the checkpoint of a length. */
  async inclusion(place, length) {
    const value = await this.#json(pathOf("proof/inclusion", { leaf: place, length }));
    return { checkpoint: checkpointIn(value), proof: member(value, "proof", "string") };
  }

  /** Leaves from a place on: the ids of logs and of records. */
  async leaves(from) {
    const lines = textIn(await this.#asked(pathOf("leaves", { from }), MOST)).split("\n");
    const found = lines.slice(0, -1).map((it) => LEAF.exec(it));
    if (found.includes(null)) throw badAnswer("a line of the answer is no leaf");
    return found.map(([, logId, recordId]) => ({ logId, recordId }));
  }

  /** The envelopes of a log by its pages, up to an empty one. Of a log that has none, nothing. */
  async *pages(logId) {
    for (let [from, left] = [0, MOST]; ; ) {
      const bytes = await this.#asked(pathOf(`logs/${logId}/records`, { from }), left).catch(nothing("NoLog"));
      const envelopes = bytes === null ? [] : envelopesIn(bytes);
      if (!envelopes.length) return;
      yield envelopes;
      from += envelopes.length;
      left -= bytes.length;
    }
  }

  async #json(path) {
    return jsonOf(await this.#asked(path, LONGEST));
  }

  /** The bytes of an answer of status 200. */
  async #asked(path, most) {
    const { status, bytes } = await this.#answer(`${this.#address}${path}`, most);
    if (status === 408 || status === 429 || status >= 500) {
      throw new Told("no answer", `the registry can't answer now, with status ${status}`);
    }
    if (bytes === null) throw badAnswer(`the answer is longer than the ${most} bytes that are read of it here`);
    if (status === 200) return bytes;
    const value = jsonOf(bytes);
    throw new Problem(status, member(value, "name", "string"), member(value, "detail", "string"));
  }

  async #answer(address, most) {
    const ended = new AbortController();
    const end = () => ended.abort();
    const timer = setTimeout(end, SECONDS * 1000);
    this.#signal.addEventListener("abort", end);
    if (this.#signal.aborted) end();
    try {
      return await answerOf(address, most, ended.signal);
    } catch (error) {
      if (error instanceof Told) throw error;
      const why = ended.signal.aborted
        ? `the whole of it did not come within ${SECONDS} seconds`
        : "the registry can't be reached, or lets no pages of other places read it (CORS)";
      throw new Told("no answer", why);
    } finally {
      clearTimeout(timer);
      this.#signal.removeEventListener("abort", end);
    }
  }
}

// Plays the scripts of conformance/ that speak of whole logs, through the package.
import { createHash } from "node:crypto";
import { BadArgument, NoEnvelope, PackageLog, Refused, Relation, logOf, records } from "weoldrin";
import { jsonWritten, quoted, rowOf, textOf, wordsOf } from "./rows.js";
import * as toy from "./toy.js";

export const PEOPLE = ["alice", "bob", "carol", "mallory"];
const IDS = new Map(PEOPLE.map((name) => [name, records.keyId(toy.keyOf(name))]));
const OWNERS = new Map([...IDS].map(([name, id]) => [id, name]));
const NANOS = 1_000_000_000n;

/** A question that the library's calls do not answer, and why. */
export class LeftOut extends Error {}

/** The id of a person's key; another name is an id itself. */
export const idOf = (name) => IDS.get(name) ?? name;

/** Whose key an id names. */
export const owner = (id) => OWNERS.get(id) ?? id;

const floor = (number) => (number % NANOS < 0n ? number / NANOS - 1n : number / NANOS);
const timeOf = (timestamp) => `${floor(timestamp)}.${timestamp - floor(timestamp) * NANOS}`;

/** The first word, the second, and the rest. */
function cut(text) {
  const [, first, second = "", rest = ""] = /^(\S*)(?: (\S*))?(?: (.*))?$/s.exec(text);
  return [first, second, rest];
}

function entryOf(kind, text) {
  const [verb, subject, rest] = cut(text);
  switch (verb) {
    case "init":
      return records.init(toy.keyOf(subject));
    case "grant":
      return records.grant(kind, toy.keyOf(subject), rest);
    case "revoke":
      return records.revoke(kind, idOf(subject), rest);
    case "release":
      return records.release(subject, records.sha256Text(Buffer.from(textOf(rest.trim()))));
    case "yank":
      return records.yank(subject);
    case "define":
      return records.defineNamespace(textOf(subject));
    case "import":
      return records.importNamespace(textOf(subject), textOf(rest));
    default:
      throw new Error(`a strange entry: ${text}`);
  }
}

/** The envelope that a line says, in a log whose last record has the id `prev`. */
export async function envelopeOf(kind, text, prev) {
  const at = text.indexOf(":");
  if (at < 0) return Buffer.from(text, "hex");
  const [signer, time, ...turns] = text.slice(0, at).split(/\s+/);
  let version = 0;
  let link = prev;
  for (const turn of turns) {
    if (turn === "unlinked") link = null;
    else if (turn === "mislinked") link = `sha256:${createHash("sha256").update("another record").digest("hex")}`;
    else version = turn === "next" ? 1 : Number(turn.replace(/^v/, ""));
  }
  const [seconds, nanos = "0"] = time.split(".");
  const parts = text.slice(at + 1).split(",").map((it) => it.trim()).filter((it) => it !== "");
  const entries = parts.map((it) => entryOf(kind, it));
  const contents = records.contents(link, BigInt(seconds) * NANOS + BigInt(nanos), entries, version);
  return records.signed(kind, contents, toy.keyOf(signer), (message) => toy.sign(signer, message));
}

/** Appends an envelope, or gives why it was refused. */
export async function append(log, envelope) {
  try {
    await log.append(envelope, toy.verify);
  } catch (error) {
    if (error instanceof NoEnvelope || error instanceof Refused) return error;
    throw error;
  }
  return null;
}

/** Whether an error is the cause that a row wants: its name, and the whole sentence. */
export function answers(error, wanted, sentences, kind) {
  const [name, ...fields] = wordsOf(wanted);
  if (name === "Parse") {
    // The sentence says which part of the envelope is wrong.
    const told = sentences.caseOfEnvelope(fields[0]);
    const isTold = told === undefined ? error.sentence !== "" : sentences.isTold("envelope", told, [], error.sentence);
    return error instanceof NoEnvelope && error.name === fields[0] && isTold;
  }
  const isTold = sentences.isTold(kind, name, fields.map(idOf), error.sentence);
  return error instanceof Refused && error.name === name && isTold;
}

/** The names of a list and what is said of each, in any order. */
const unordered = (answer) => answer.replaceAll(/ defined| imported from /g, "=").split(/\s+/).sort().join(" ");

const same = (left, right) => jsonWritten(JSON.parse(left)) === jsonWritten(JSON.parse(right));

/**
 * A script on the way: a log that keeps its records, the state, which may have been saved and read back, and what was
 * put aside.
 */
export class Player {
  constructor(kind, sentences, library) {
    Object.assign(this, { kind, sentences, library, failures: [], rows: 0, leftOut: [], aside: null, refusal: null });
  }

  async #begin() {
    this.kept = await logOf(this.kind, { library: this.library });
    this.state = await logOf(this.kind, { library: this.library });
    this.base = null;
    this.strings = [];
  }

  /** Plays all lines. */
  async play(script) {
    await this.#begin();
    for (const line of script.lines) await this.#play(line);
    this.#unnamed();
    await this.#checkAgain();
  }

  #fail(line, seen) {
    this.failures.push(`line ${line.number}: ${line.text}: seen ${seen}`);
  }

  async #play(line) {
    const { text } = line;
    if (text.startsWith("! ")) {
      this.rows++;
      const refusal = this.refusal;
      this.refusal = null;
      const isWell = refusal && answers(refusal.error, text.slice(2), this.sentences, this.kind);
      if (!isWell) this.#fail(line, refusal?.error);
      return;
    }
    this.#unnamed();
    if (text.startsWith("? ")) await this.#ask(line);
    else if (text === "resume") this.state = await this.#copy();
    else if (text === "aside") {
      await this.#checkAgain();
      this.aside = [this.kept, this.state];
      await this.#begin();
    } else if (text.startsWith("state ")) {
      await this.#begin();
      this.kept = null;
      this.base = text.slice(6);
      this.state = await this.#from(this.base);
    } else if (text === "again") await this.#append(line, this.strings.at(-1));
    else await this.#append(line, await envelopeOf(this.kind, text, this.state.head()));
  }

  #from(json) {
    return this.state.constructor.fromJson(json, { library: this.library });
  }

  #copy() {
    return this.#from(this.state.toJson());
  }

  // Appends to each log that there is: to a saved copy, to the one with records, and to the state.
  async #append(line, envelope) {
    const logs = this.kept ? [this.kept] : [];
    try {
      logs.push(await this.#copy());
    } catch (error) {
      if (!(error instanceof BadArgument)) throw error;
    }
    const error = await append(this.state, envelope);
    for (const log of logs) {
      const head = log.head();
      const other = await append(log, envelope);
      if (String(other) !== String(error) || (error && log.head() !== head)) {
        this.#fail(line, `answered otherwise by another log: ${other}, ${error}`);
      }
      if (!error && log.head() !== this.state.head()) this.#fail(line, "another head");
      if (log !== this.kept) log.close();
    }
    if (error) {
      this.refusal = { line, error };
      return;
    }
    this.strings.push(envelope);
    const id = this.library.recordId(this.kind, envelope);
    if (this.state.head() !== id) this.#fail(line, "the head is not the record's id");
  }

  #unnamed() {
    if (!this.refusal) return;
    const { line, error } = this.refusal;
    this.refusal = null;
    this.#fail(line, error);
  }

  // The strings that were taken give an equal state from the beginning.
  async #checkAgain() {
    const again = this.base === null ? await logOf(this.kind, { library: this.library }) : await this.#from(this.base);
    try {
      for (const envelope of this.strings) await again.append(envelope, toy.verify);
      if (!same(again.toJson(), this.state.toJson())) this.failures.push("the strings give another state");
    } catch (error) {
      if (!(error instanceof BadArgument)) throw error;
    } finally {
      again.close();
    }
  }

  async #ask(line) {
    const { question, wanted } = rowOf(line.text.slice(2));
    let seen;
    try {
      seen = `= ${this.#answer(question)}`;
    } catch (error) {
      if (error instanceof LeftOut) {
        this.leftOut.push(error.message);
        return;
      }
      if (!(error instanceof BadArgument)) throw error;
      if (error.name === "TimeBeforeEpoch" && question === "head time") {
        this.leftOut.push("a head's time before 1970: only the saved state says the time, and not such a one");
        return;
      }
      seen = `! ${error.name}`;
    }
    this.rows++;
    const lookUp = question.split(" ")[0];
    // The names come from the saved state, which has them by their bytes, and permissions in the order of their kind.
    const isList = ["keys", "namespaces", "permissions"].includes(lookUp);
    if (isList && unordered(seen) === unordered(wanted)) return;
    if (seen !== wanted) this.#fail(line, seen);
  }

  #answer(question) {
    const [lookUp, subject, rest] = cut(question);
    switch (lookUp) {
      case "effect":
        throw new LeftOut("what one entry gives or takes: no call says it");
      case "records":
        return String(this.kept.length);
      case "chain": {
        const links = this.kept.chain(idOf(subject), rest);
        return links === null ? "none" : links.map((it) => `${it.record}.${it.entry}`).join(" ");
      }
      case "comparison":
      case "heads":
        return this.#compared(lookUp);
      case "equal":
        return String(same(this.state.toJson(), this.aside[1].toJson()));
      default:
        return stateAnswer(this.state, lookUp, question.slice(lookUp.length + 1));
    }
  }

  #compared(lookUp) {
    const { relation, left, right } = this.kept.compare(this.aside[0]);
    if (lookUp === "heads") {
      if (this.kept.head() !== this.aside[0].head()) return "different";
      return relation === Relation.COLLISION ? "collision" : "same";
    }
    const count = { [Relation.SAME]: 0, [Relation.COLLISION]: 2 }[relation] ?? 1;
    return [relation, ...[left, right].slice(0, count)].join(" ");
  }
}

/** What a log answers of its state. */
export function stateAnswer(log, lookUp, subject) {
  const saved = () => JSON.parse(log.toJson());
  switch (lookUp) {
    case "head": {
      if (subject === "digest") return log.head() ?? "none";
      const { head } = saved();
      if (!head) return "none";
      return String(subject === "version" ? (head.version ?? 0) : head.timestamp);
    }
    case "head-json": {
      const { head } = saved();
      return head ? jsonWritten(head) : "none";
    }
    case "key":
      return log.publicKey(idOf(subject)) ?? "none";
    case "permissions":
      return log.permissions(idOf(subject))?.reduce((text, it) => `${text} ${it}`, "only") ?? "none";
    case "keys": {
      const names = Object.keys(saved().keys ?? {});
      return ["only", ...names.map((it) => [owner(it), ...(log.permissions(it) ?? [])].join("+"))].join(" ");
    }
    case "saved":
      return jsonWritten(subject ? saved().permissions[idOf(subject)] : saved());
    default:
      if (log instanceof PackageLog) return packageAnswer(log, lookUp, subject);
      return operatorAnswer(log, lookUp, subject, saved);
  }
}

const deed = (id, timestamp) => `by ${owner(id)} at ${timeOf(timestamp)}`;

function releaseAnswer(release, lookUp) {
  if (release === null) return "none";
  if (lookUp === "record") return release.recordId;
  if (lookUp === "content") return release.content ?? "none";
  const told = deed(release.by, release.timestamp);
  return release.yanked ? `${told}, yanked ${deed(release.yankedBy, release.yankedTimestamp)}` : told;
}

function packageAnswer(log, lookUp, subject) {
  const word = subject.split(" ")[0];
  switch (lookUp) {
    case "releases":
      return ["only", ...Array.from(log.releases(), (it) => it.version)].join(" ");
    case "latest":
      return log.latest(subject)?.version ?? "none";
    case "release":
    case "record":
    case "content":
      return releaseAnswer(log.release(word), lookUp);
    default:
      throw new Error(`a strange question: ${lookUp}`);
  }
}

function namespaceAnswer(log, name) {
  const state = log.namespaceState(name);
  if (state === null) return "none";
  return state.importedFrom === null ? "defined" : `imported from ${state.importedFrom}`;
}

function operatorAnswer(log, lookUp, subject, saved) {
  switch (lookUp) {
    case "signs":
      return String(log.holds(idOf(subject), "commit"));
    case "namespace":
      return namespaceAnswer(log, textOf(subject));
    case "namespaces": {
      const names = Object.keys(saved().namespaces ?? {});
      return ["only", ...names.map((it) => `${quoted(it)} ${namespaceAnswer(log, it)}`)].join(" ");
    }
    default:
      throw new Error(`a strange question: ${lookUp}`);
  }
}

/** The envelopes of a run: a record names the one before it, whether that is lawful or not. */
export async function runEnvelopes(kind, lines, library) {
  const found = [];
  let last = null;
  for (const line of lines) {
    const envelope = line === "again" ? found.at(-1) : await envelopeOf(kind, line, last);
    if (line.includes(":")) last = library.recordId(kind, envelope);
    found.push(envelope);
  }
  return found;
}

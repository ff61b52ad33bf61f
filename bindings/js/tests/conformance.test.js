// The rows of conformance/logs that speak of whole logs, states, chains and comparisons, answer for answer.
import { at, without } from "./place.js";
import assert from "node:assert/strict";
import { readdirSync } from "node:fs";
import { test } from "node:test";
import { BadArgument, BadLine, Fault, Kind, Library, NoEnvelope, WeoldrinError, appendAll, logOf } from "weoldrin";
import { LeftOut, Player, answers, runEnvelopes, stateAnswer } from "./player.js";
import { blocks, jsonWritten, quoted, rowOf, textOf, wordsOf } from "./rows.js";
import { Sentences } from "./sentences.js";
import * as toy from "./toy.js";

const KINDS = Object.values(Kind);
// What no call of the library answers, by the topic.
const OTHER_TOPICS = {
  refusal: "an error's sentence by itself: the library says it of what it refuses",
  "newest-version": "the newest version of the protocol: no call says it",
  saved: "a part of a saved state: the library reads whole states",
  audit: "other words of the program than the two audits and the two ids",
};
// The refusals that no log shows: there is one hash algorithm, want of memory has a status of its own, and any other
// entry of operators than an init asks for a permission first.
const NEVER_SHOWN = [
  "envelope OutOfMemory",
  "operator FirstEntryIsNotInit",
  "operator IncorrectHashAlgorithm",
  "operator OutOfMemory",
  "package IncorrectHashAlgorithm",
  "package OutOfMemory",
];

/** What the lines say that `warg_audit` reads, which passes over none, unlike the tool and the package. */
function stringsOf(given) {
  const lines = given.split("\n");
  if (lines.at(-1) === "") lines.pop();
  return lines.map((line, place) => {
    const digits = line.replace(/\r$/, "");
    if (digits.length % 2 || /[^0-9a-fA-F]/.test(digits)) throw new BadLine(place, place + 1);
    return Buffer.from(digits, "hex");
  });
}

class Rows {
  constructor(library) {
    this.library = library;
    this.sentences = new Sentences(at("conformance/logs/refusals.rows"));
    Object.assign(this, { failures: [], played: 0, leftOut: new Map() });
  }

  leave(why) {
    this.leftOut.set(why, (this.leftOut.get(why) ?? 0) + 1);
  }

  fail(name, block, seen) {
    this.failures.push(`${name} ${block.head.number} ${block.head.text}: ${seen}`);
  }

  async play(name, block) {
    const [topic, ...words] = block.head.text.replace(/:$/, "").split(" ");
    const [kind] = words;
    const isPart = topic === "saved" && !KINDS.includes(kind);
    if (topic === "refusal" || topic === "newest-version" || isPart) this.leave(OTHER_TOPICS[topic]);
    else if (topic === "log") await this.log(name, block, kind);
    else if (topic === "audit") await this.program(name, block, words);
    else if (topic === "run") await this.run(name, block, kind);
    else if (topic === "saved") await this.saved(name, block, kind);
    else this.fail(name, block, "a strange topic");
  }

  async log(name, block, kind) {
    const player = new Player(kind, this.sentences, this.library);
    await player.play(block);
    this.played += player.rows;
    player.leftOut.forEach((it) => this.leave(it));
    this.failures.push(...player.failures.map((it) => `${name} ${it}`));
  }

  async saved(name, block, kind) {
    const { question, wanted } = rowOf(block.head.text);
    const log = await logOf(kind, { library: this.library });
    let seen;
    try {
      const read = await log.constructor.fromJson(textOf(question.slice(`saved ${kind} `.length)), log);
      seen = `= ${jsonWritten(JSON.parse(read.toJson()))}`;
      read.close();
    } catch (error) {
      if (!(error instanceof BadArgument)) throw error;
      // The library names a fault by its own case: not that it is of a value, nor what does not fit together.
      const isNamed = wanted.startsWith("! ") && wanted.slice(2).split(".").slice(0, 2).includes(error.name);
      seen = isNamed ? wanted : `! ${error.name}`;
    }
    log.close();
    this.played++;
    if (seen !== wanted) this.fail(name, block, seen);
  }

  async run(name, block, kind) {
    const strings = block.lines.map((it) => it.text).filter((it) => !/^[!?] /.test(it));
    const log = await logOf(kind, { library: this.library });
    let refused = null;
    for (const [place, envelope] of (await runEnvelopes(kind, strings, this.library)).entries()) {
      try {
        await log.append(envelope, toy.verify);
      } catch (error) {
        if (!(error instanceof WeoldrinError)) throw error;
        refused = { place, error };
        break;
      }
    }
    for (const { text } of block.lines) {
      if (text.startsWith("! ")) {
        this.played++;
        const [place, ...cause] = text.slice(2).split(" ");
        const isTold = refused?.place === Number(place);
        if (!isTold || !answers(refused.error, cause.join(" "), this.sentences, kind)) {
          this.fail(name, block, refused?.error);
        }
      } else if (text.startsWith("? ")) {
        this.played++;
        const { question, wanted } = rowOf(text.slice(2));
        const lookUp = question.split(" ")[0];
        const seen = `= ${stateAnswer(log, lookUp, question.slice(lookUp.length + 1))}`;
        if (seen !== wanted) this.fail(name, block, seen);
      }
    }
    log.close();
  }

  // What the program `warg_audit` prints.
  async program(name, block, words) {
    const parts = [];
    for (const { number, text } of block.lines) {
      if (!text.startsWith("? ")) {
        const at = text.indexOf(" = ");
        parts.push([`{${text.slice(0, at)}}`, text.slice(at + 3)]);
        continue;
      }
      const kind = words.at(-1);
      if (!KINDS.includes(kind) || (words.length > 1 && (words.length > 2 || words[0] !== "id"))) {
        this.leave(OTHER_TOPICS.audit);
        continue;
      }
      const { question, wanted } = rowOf(text.slice(2));
      const given = parts.reduce((whole, [part, it]) => whole.replaceAll(part, () => it), textOf(question));
      let found;
      try {
        found = await (words[0] === "id" ? this.identified(kind, given) : this.audited(kind, given));
      } catch (error) {
        if (!(error instanceof LeftOut)) throw error;
        this.leave(error.message);
        continue;
      }
      this.played++;
      const { status, printed, refusal } = found;
      const isTold = !refusal || this.sentences.isToldByName(kind, refusal.name, refusal.sentence);
      if (`= ${status} ${quoted(printed)}` !== wanted || !isTold) this.fail(
        name,
        block,
        `${number}: ${status} ${printed}`,
      );
    }
  }

  async audited(kind, given) {
    let envelopes;
    try {
      envelopes = stringsOf(given);
    } catch (error) {
      if (!(error instanceof Fault)) throw error;
      return { status: 2, printed: `${error.message}\n` };
    }
    const log = await logOf(kind, { library: this.library });
    const { taken, refusal } = await appendAll(log, envelopes, toy.verify);
    if (refusal) return { status: 1, printed: `refused ${refusal.place} ${refusal.name}\n`, refusal };
    const releases = kind === Kind.PACKAGE ? [...log.releases()] : [];
    const told = releases.map((it) => `${it.version} ${it.yanked ? "yanked" : `released ${it.content}`}\n`);
    const printed = `ok ${taken} ${log.head() ?? "none"}\n${told.join("")}`;
    log.close();
    return { status: 0, printed };
  }

  identified(kind, given) {
    let envelopes;
    try {
      const lines = given.split("\n").slice(0, 2).join("\n");
      envelopes = stringsOf(lines);
    } catch (error) {
      if (!(error instanceof Fault)) throw error;
      return { status: 2, printed: `${error.message}\n` };
    }
    if (envelopes.length !== 1) return { status: 2, printed: `bad line ${Math.min(envelopes.length, 1)}\n` };
    try {
      return { status: 0, printed: `${this.library.recordId(kind, envelopes[0])}\n` };
    } catch (error) {
      if (!(error instanceof NoEnvelope)) throw error;
      if (!error.name.startsWith("ProtobufEnvelope.")) {
        throw new LeftOut("the id of contents that are no record: the library gives those of records alone");
      }
      return { status: 1, printed: `refused 0 ${error.name}\n`, refusal: error };
    }
  }
}

test("the rows of logs", { skip: without("conformance/logs") }, async (context) => {
  const rows = new Rows(await Library.load());
  for (const name of readdirSync(at("conformance/logs")).sort()) {
    if (!name.endsWith(".rows")) continue;
    for (const block of blocks(at(`conformance/logs/${name}`))) await rows.play(name, block);
  }
  context.diagnostic(`${rows.played} rows played, ${rows.failures.length} failed`);
  for (const [why, count] of rows.leftOut) context.diagnostic(`left out ${count}: ${why}`);
  assert.deepEqual(rows.failures, []);
  assert.ok(rows.played > 700);
  assert.deepEqual(rows.sentences.notCompared().sort(), NEVER_SHOWN);
});

test("the rows of one case say one sentence, but for its fields", { skip: without("conformance/logs") }, () => {
  const sentences = new Sentences(at("conformance/logs/refusals.rows"));
  for (const [question, sentence] of sentences.rows) {
    const [topic, name, ...fields] = wordsOf(question.replace(/^refusal /, ""));
    assert.equal(sentences.of(topic, name, fields), sentence);
  }
});

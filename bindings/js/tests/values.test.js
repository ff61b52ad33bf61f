// The rows of values, of messages and of what a registry proves, where the library or the package has a call that
// tells.
import { at, without } from "./place.js";
import assert from "node:assert/strict";
import { createHash } from "node:crypto";
import { readdirSync } from "node:fs";
import { test } from "node:test";
import {
  BadArgument,
  CheckpointComparison,
  Kind,
  LeafComparison,
  Library,
  NoEnvelope,
  RegistryTrees,
  UnknownAlgorithm,
  checkpoints,
  logOf,
  records,
} from "weoldrin";
import { blocks, bytesOf, jsonWritten, quoted, rowOf, wordsOf } from "./rows.js";
import * as toy from "./toy.js";
import * as trees from "./trees.js";

// A hash, to which no proof leads.
const ANY = records.sha256Text(new Uint8Array());
// The text of a proof on a map whose siblings are all roots of empty subtrees.
const NO_SIBLINGS = Buffer.alloc(32, 255).toString("base64");
const KINDS = { package: [Kind.PACKAGE], operator: [Kind.OPERATOR], both: Object.values(Kind) };
const RECORD = { [Kind.PACKAGE]: "WARG-PACKAGE-LOG-RECORD-V0:", [Kind.OPERATOR]: "WARG-OPERATOR-LOG-RECORD-V0:" };
const KEY = "ecdsa-p256:AwAAAAAAAAAAAAAAAAAAAAAAAAAAAAAAAAAAAAAAAAAA";
const PREFIX = "WARG-CHECKPOINT-SIGNATURE-V0:";
// Of these the last word is a text of JSON, with all that stands in it.
const WITH_JSON = { "from-json": 1, "sign-apart": 2 };

/** The name of what a call throws of an argument, or what it gives. */
function faultOf(call) {
  try {
    return { given: call() };
  } catch (error) {
    if (error instanceof BadArgument || error instanceof NoEnvelope || error instanceof UnknownAlgorithm) {
      return { name: error.name, error };
    }
    throw error;
  }
}

/** The questions of one library. Each gives an answer, or undefined where it has no call that tells. */
class Answers {
  constructor(library) {
    this.library = library;
  }

  // Whether a text can be read by a call; a fault that the library does not name is taken for the one that is wanted.
  #read(text, wanted, call) {
    const { name } = faultOf(call);
    if (name === undefined || name === "UnknownAlgorithm") return `= ${quoted(text)}`;
    return wanted.startsWith("! ") ? wanted : `! ${name}`;
  }

  parse([kind, text], wanted) {
    const { library } = this;
    const proof = (call) => {
      const { name } = faultOf(call);
      return name === undefined ? `= ${quoted(text)}` : `! ${name}`;
    };
    switch (kind) {
      case "log-proof":
        return proof(() => library.verifyInclusion(ANY, ANY, 0, 1, ANY, text));
      case "map-proof":
        return proof(() => library.verifyAbsence(ANY, ANY, text));
      case "key":
        return this.#read(text, wanted, () => library.verify(text, bytesOf("-"), "ecdsa-p256:AAAA"));
      case "signature":
        return this.#read(text, wanted, () => library.verify(KEY, bytesOf("-"), text));
      case "hash":
      case "log-id":
      case "record-id": {
        // Digits are printed in lower case.
        const passed = [ANY, ANY, ANY];
        passed[["log-id", "record-id", "hash"].indexOf(kind)] = text;
        const seen = this.#read(text, wanted, () => library.verifyPresence(...passed, NO_SIBLINGS));
        return seen.startsWith("= ") ? seen.toLowerCase() : seen;
      }
      case "package-permission":
      case "operator-permission": {
        const log = logs.get(kind.split("-")[0]);
        return this.#read(text, wanted, () => log.holds("a key", text));
      }
      case "package-name":
        return this.#named(text, () => this.library.logId(Kind.PACKAGE, text) && quoted(text));
      default:
        return undefined;
    }
  }

  // A package's log has each name that is one.
  #named(text, call) {
    const { name, given } = faultOf(call);
    if (name === undefined) return `= ${given}`;
    return name === "BadName" ? `! InvalidPackageName ${quoted(text)}` : `! ${name}`;
  }

  "package-log-id"([name]) {
    return this.#named(name, () => this.library.logId(Kind.PACKAGE, name));
  }

  "operator-log-id"() {
    return `= ${this.library.logId(Kind.OPERATOR)}`;
  }

  "verify-inclusion"([log, record, place, length, root, proof], wanted) {
    const seen = this.#shows(
      wanted,
      () => this.library.verifyInclusion(log, record, BigInt(place), BigInt(length), root, proof),
    );
    const checkpoint = { logRoot: root, logLength: BigInt(length) };
    const shown = { checkpoint, logId: log, recordId: record, proof };
    const isShown = () => this.library.compareLeaves(BigInt(place), shown, shown) === LeafComparison.SAME;
    assert.equal(this.#shows(wanted, isShown), seen);
    return seen;
  }

  "verify-consistency"([old, oldRoot, fresh, root, proof], wanted) {
    const lengths = [old, fresh].map(BigInt);
    const seen = this.#shows(wanted, () => this.library.verifyConsistency(lengths[0], oldRoot, lengths[1], root, proof));
    if (lengths[0] < lengths[1]) {
      const [older, newer] = [oldRoot, root].map((logRoot, it) => ({ logRoot, logLength: lengths[it], mapRoot: ANY }));
      const goesOn = () => this.library.compareCheckpoints(older, newer, proof) === CheckpointComparison.GOES_ON;
      assert.equal(this.#shows(wanted, goesOn), seen);
    }
    return seen;
  }

  "verify-presence"(words, wanted) {
    return this.#shows(wanted, () => this.library.verifyPresence(...words));
  }

  "verify-absence"(words, wanted) {
    return this.#shows(wanted, () => this.library.verifyAbsence(...words));
  }

  // Of a text that is no hash no fault is named: then the wanted one is taken for it.
  #shows(wanted, call) {
    const { name, given } = faultOf(call);
    if (name === "BadText") return ["= ok", "! Refused"].includes(wanted) ? "a fault" : wanted;
    return name === undefined ? (given ? "= ok" : "! Refused") : `! ${name}`;
  }

  // What the trees of these leaves give is what is given by definition.
  #ofTrees(words, call, defined) {
    const leaves = trees.leavesOf(words);
    const held = new RegistryTrees(this.library);
    for (const { logId, recordId } of leaves) held.push(logId, recordId);
    const given = call(held);
    held.close();
    assert.equal(given, defined(leaves, leaves.map(trees.hashInLog)));
    return given === null ? "= none" : `= ${quoted(given)}`;
  }

  "inclusion-proof"([place, ...words]) {
    const defined = (leaves, hashes) =>
      Number(place) < leaves.length ? trees.textOf(trees.inclusion(Number(place), hashes)) : null;
    return this.#ofTrees(words, (it) => it.inclusion(BigInt(place)), defined);
  }

  "consistency-proof"([length, ...words]) {
    const defined = (leaves, hashes) =>
      Number(length) <= leaves.length ? trees.textOf(trees.consistency(Number(length), hashes)) : null;
    return this.#ofTrees(words, (it) => it.consistency(BigInt(length)), defined);
  }

  "map-proof"([logId, ...words]) {
    const defined = (leaves) => new trees.SparseMap(leaves).proof(logId);
    return this.#ofTrees(words, (it) => it.head(logId).proof, defined);
  }

  "log-root"(words) {
    const defined = (leaves, hashes) => trees.hashText(trees.logRoot(hashes));
    return this.#ofTrees(words, (it) => it.roots().logRoot, defined);
  }

  "map-root"(words) {
    const defined = (leaves) => trees.hashText(new trees.SparseMap(leaves).root());
    return this.#ofTrees(words, (it) => it.roots().mapRoot, defined);
  }

  // Of messages

  "record-id"([kind, bytes]) {
    return `= ${this.library.recordId(kind, bytesOf(bytes))}`;
  }

  decode(words, wanted) {
    return this.#envelope(words, wanted);
  }

  "both-ways"(words, wanted) {
    return this.#envelope(words, wanted);
  }

  // Of what an envelope says the library tells the id, which is the digest of the content.
  #envelope([kind, what, bytes], wanted) {
    if (what !== "envelope" || !KINDS[kind]) return undefined;
    const [, content] = / content (\S+)/.exec(wanted) ?? [];
    for (const it of KINDS[kind]) {
      const { name, given, error } = faultOf(() => this.library.recordId(it, bytesOf(bytes)));
      if (name !== undefined) {
        if (!wanted.startsWith("! ")) return `! ${name}`;
        // A case's field stands in its name's row alone.
        if (wanted.slice(2).split(" ")[0] !== name) return `! ${error}`;
      } else {
        if (content === undefined) return `= ${given}`;
        const digest = createHash("sha256").update(RECORD[it]).update(bytesOf(content)).digest("hex");
        if (given !== `sha256:${digest}`) return `= ${given}`;
      }
    }
    return wanted;
  }

  async sign([kind, signer, content]) {
    const key = toy.keyOf(signer);
    const made = await records.signed(kind, bytesOf(content), key, (message) => toy.sign(signer, message));
    return `= ${Buffer.from(made).toString("hex")}`;
  }

  "signing-prefix"([kind]) {
    return `= ${Buffer.from(records.message(kind, new Uint8Array())).toString().slice(0, -1)}`;
  }

  // Of values

  sha256([bytes]) {
    return `= ${records.sha256Text(bytesOf(bytes))}`;
  }

  fingerprint([key]) {
    return `= ${records.keyId(key)}`;
  }

  "checkpoint-prefix"() {
    return `= ${Buffer.from(checkpoints.message(new Uint8Array())).toString().slice(0, -1)}`;
  }

  #checkpoint([logRoot, logLength, mapRoot, timestamp]) {
    const found = { logRoot, logLength: BigInt(logLength), mapRoot };
    return timestamp === undefined ? found : { ...found, timestamp: BigInt(timestamp) };
  }

  // Those of a checkpoint with its time are told by the library too, and are the same.
  bytes([kind, ...words]) {
    if (kind === "log-leaf") return `= ${Buffer.from(this.library.leaf(...words)).toString("hex")}`;
    if (!kind.endsWith("checkpoint")) return undefined;
    const checkpoint = this.#checkpoint(words);
    const contents = Buffer.from(checkpoints.contents(checkpoint));
    if (checkpoint.timestamp === undefined) return `= ${contents.toString("hex")}`;
    const message = Buffer.from(this.library.checkpointMessage(checkpoint));
    assert.deepEqual(message, Buffer.from(checkpoints.message(contents)));
    return `= ${message.subarray(PREFIX.length).toString("hex")}`;
  }

  "encode-checkpoint"(words) {
    return this.bytes(["timestamped-checkpoint", ...words]);
  }

  "sign-checkpoint"([name, ...words]) {
    return `= ${toy.sign(name, this.library.checkpointMessage(this.#checkpoint(words)))}`;
  }

  "sign-apart"([kind, name], wanted, json) {
    if (kind !== "checkpoint") return undefined;
    const { name: fault, given: checkpoint } = faultOf(() => checkpoints.parseTimestamped(json));
    if (fault !== undefined) return `! ${fault}`;
    const signature = toy.sign(name, this.library.checkpointMessage(checkpoint));
    const text = checkpoints.signedToJson({ checkpoint, keyId: records.keyId(toy.keyOf(name)), signature });
    assert.equal(checkpoints.signedToJson(checkpoints.parseSigned(text)), text);
    return `= ${jsonWritten(JSON.parse(text))}`;
  }

  "verify-checkpoint"([key, bytes, signature]) {
    const message = checkpoints.message(bytesOf(bytes));
    return toy.verify({ key, message, signature }) ? "= ok" : "! Refused";
  }

  "to-json"([kind, ...words]) {
    return kind.endsWith("checkpoint") ? `= ${checkpoints.toJson(this.#checkpoint(words))}` : undefined;
  }

  "from-json"([kind], wanted, json) {
    if (!kind.endsWith("checkpoint")) return undefined;
    const read = kind === "checkpoint" ? checkpoints.parse : checkpoints.parseTimestamped;
    const { name, given } = faultOf(() => read(json));
    if (name !== undefined) return `! ${name}`;
    const { logRoot, logLength, mapRoot, timestamp } = given;
    return `= ${[logRoot, logLength, mapRoot, ...(timestamp === undefined ? [] : [timestamp])].join(" ")}`;
  }
}

const logs = new Map();
const PLAYED = ["values", "messages"].filter((it) => !without(`conformance/${it}`));

const LEFT_OUT = PLAYED.length ? false : "there are no rows here";

test("the rows of values, messages and proofs", { skip: LEFT_OUT }, async (context) => {
  const library = await Library.load();
  for (const kind of Object.values(Kind)) logs.set(kind, await logOf(kind, { library }));
  const answers = new Answers(library);
  const [played, leftOut, wrong] = [new Map(), new Map(), []];
  for (const folder of PLAYED) {
    for (const name of readdirSync(at(`conformance/${folder}`)).filter((it) => it.endsWith(".rows"))) {
      if (name === "p256.rows") continue;
      for (const { head } of blocks(at(`conformance/${folder}/${name}`))) {
        const { question, wanted } = rowOf(head.text);
        const [topic] = question.split(" ");
        const before = WITH_JSON[topic];
        const words = before ? question.split(" ").slice(1, 1 + before) : wordsOf(question).slice(1);
        const json = before ? question.slice([topic, ...words, ""].join(" ").length) : "";
        const isAsked = Object.hasOwn(Answers.prototype, topic);
        const seen = isAsked ? await answers[topic](words, wanted, json) : undefined;
        const counted = seen === undefined ? leftOut : played;
        counted.set(topic, (counted.get(topic) ?? 0) + 1);
        if (seen !== undefined && seen !== wanted) wrong.push(`${name} ${head.number}: ${head.text}: ${seen}`);
      }
    }
  }
  const shown = (counts) => [...counts].map(([topic, count]) => `${topic} ${count}`).join(", ");
  context.diagnostic(`played: ${shown(played)}`);
  context.diagnostic(`no call tells: ${shown(leftOut)}`);
  assert.deepEqual(wrong, []);
  for (const it of ["package-log-id", "operator-log-id", "sign-checkpoint", "sign-apart", "map-root", "map-proof"]) {
    assert.ok(played.get(it), it);
  }
  assert.ok([...played.values()].reduce((sum, it) => sum + it) > 600);
});

// What a registry showed twice under one root: answers about the last record of a log, and beginnings of its log.
import "./place.js";
import assert from "node:assert/strict";
import { test } from "node:test";
import {
  BadArgument,
  BeginningComparison,
  HeadComparison,
  Library,
  NotOpen,
  compareBeginnings,
  compareHeads,
  records,
} from "weoldrin";
import * as definitions from "./trees.js";

const idOf = (text) => records.sha256Text(Buffer.from(text));
const upper = (text) => text.slice(0, 7) + text.slice(7).toUpperCase();

// The log 4 has one leaf, at place 4, which a forked registry has otherwise; the log 9 has none.
const SIZE = 9;
const LEAVES = Array.from({ length: SIZE }, (_, it) => ({
  logId: idOf(`log ${it === 4 ? it : it % 4}`),
  recordId: idOf(`record ${it}`),
}));
const FORK = LEAVES.with(4, { ...LEAVES[4], recordId: idOf("forked") });
const NO_HASHES = ["", "sha256", "sha256:", "sha256:00", "!", "\0", "\ud800", `${idOf("x")}0`];
const FAULTS = { A: "BadBase64", "AA==": "BadLength", ["A".repeat(2733)]: "TooLong", "\ud800": "BadBase64" };
const MAP_FAULTS = { A: "BadBase64", "": "BadLength", ["A".repeat(10969)]: "TooLong", "\ud800": "BadBase64" };
const NO_NUMBERS = [-1, -1n, 0.5, 2 ** 53, 2n ** 64n, "0", null, undefined];

const library = await Library.load();
const hashes = (leaves) => leaves.map(definitions.hashInLog);
const mapRootOf = (leaves) => definitions.hashText(new definitions.SparseMap(leaves).root());
const ROOT = mapRootOf(LEAVES);

/** The checkpoint of leaves by their definition. */
const checkpointOf = (leaves) => ({
  logRoot: definitions.hashText(definitions.logRoot(hashes(leaves))),
  logLength: BigInt(leaves.length),
  mapRoot: mapRootOf(leaves),
});

/** The last record of a log, or null, with its proof. */
const headOf = (logId, leaves) => ({
  recordId: leaves.findLast((it) => it.logId === logId)?.recordId ?? null,
  proof: new definitions.SparseMap(leaves).proof(logId),
});

/** The checkpoint of the first leaves, with the proof that the log of all begins with its own. */
const beginning = (first, leaves) => ({
  checkpoint: checkpointOf(leaves.slice(0, first)),
  proof: definitions.textOf(definitions.consistency(first, hashes(leaves))),
});

/** Another proof of the same length. */
function changed(proof) {
  const bytes = Buffer.from(proof, "base64");
  bytes[bytes.length - 1] ^= 1;
  return bytes.toString("base64");
}

/** A bad argument of a name. */
const bad = (name) => (error) => error instanceof BadArgument && error.name === name;

/** Whether two answers compare so, in either order, by the library and by the one that is shared. */
async function compare(root, logId, one, other, wanted) {
  assert.equal(library.compareHeads(root, logId, one, other), wanted);
  assert.equal(await compareHeads(root, logId, other, one), wanted);
}

/** The same of two beginnings. */
async function compareFirst(newer, one, other, wanted) {
  assert.equal(library.compareBeginnings(newer, one, other), wanted);
  assert.equal(await compareBeginnings(newer, other, one), wanted);
}

test("each case has its name, in the order of the library's numbers", () => {
  assert.deepEqual(Object.values(HeadComparison), ["same", "two", "one-and-none", "not-shown"]);
  assert.deepEqual(Object.values(BeginningComparison), ["same", "fork", "collision", "two-lengths", "not-shown"]);
});

test("answers that are one: a record, or none", async () => {
  for (const name of ["log 0", "log 3", "log 4", "log 9"]) {
    const one = headOf(idOf(name), LEAVES);
    assert.equal(one.recordId === null, name === "log 9");
    await compare(ROOT, idOf(name), one, one, HeadComparison.SAME);
    assert.equal(await compareHeads(ROOT, idOf(name), one, one, { library }), HeadComparison.SAME);
  }
  const one = headOf(idOf("log 0"), LEAVES);
  const capitals = { ...one, recordId: upper(one.recordId) };
  await compare(upper(ROOT), upper(idOf("log 0")), capitals, one, HeadComparison.SAME);
});

test("answers of which one is not shown, or neither", async () => {
  const [logId, noneId] = [idOf("log 4"), idOf("log 9")];
  const [one, none] = [logId, noneId].map((it) => headOf(it, LEAVES));
  const wrong = [
    { ...one, recordId: null },
    { ...one, recordId: idOf("forked") },
    { ...one, proof: none.proof },
    { ...one, proof: changed(one.proof) },
    headOf(logId, FORK),
    headOf(logId, LEAVES.slice(0, 4)),
    none,
  ];
  for (const it of wrong) {
    for (const right of [one, it]) await compare(ROOT, logId, it, right, HeadComparison.NOT_SHOWN);
  }
  for (const it of [{ ...none, recordId: one.recordId }, { ...none, proof: one.proof }, one]) {
    await compare(ROOT, noneId, none, it, HeadComparison.NOT_SHOWN);
  }
  await compare(mapRootOf(FORK), logId, one, one, HeadComparison.NOT_SHOWN);
});

test("answers of no form; an empty text is no id of a record", async () => {
  const logId = idOf("log 4");
  const [one, none] = [logId, idOf("log 9")].map((it) => headOf(it, LEAVES));
  for (const it of NO_HASHES) {
    assert.throws(() => library.compareHeads(it, logId, one, one), bad("BadText"));
    assert.throws(() => library.compareHeads(ROOT, it, one, one), bad("BadText"));
    for (const other of [one, none]) {
      assert.throws(() => library.compareHeads(ROOT, logId, { ...one, recordId: it }, other), bad("BadText"));
      assert.throws(() => library.compareHeads(ROOT, logId, other, { ...one, recordId: it }), bad("BadText"));
    }
  }
  for (const [proof, name] of Object.entries(MAP_FAULTS)) {
    for (const recordId of [one.recordId, null, ""]) {
      assert.throws(() => library.compareHeads(ROOT, logId, { recordId, proof }, one), bad(name));
      assert.throws(() => library.compareHeads(ROOT, logId, none, { recordId, proof }), bad(name));
    }
  }
  const [first, second] = [{ ...one, proof: "A" }, { ...one, proof: "" }];
  assert.throws(() => library.compareHeads(ROOT, logId, first, second), bad("BadBase64"));
  assert.throws(() => library.compareHeads(ROOT, logId, second, first), bad("BadLength"));
  for (const it of [undefined, 7]) {
    assert.throws(() => library.compareHeads(ROOT, logId, { ...one, recordId: it }, one), TypeError);
    assert.throws(() => library.compareHeads(it, logId, one, one), TypeError);
  }
});

test("beginnings of one log, of each two lengths", async () => {
  const newer = checkpointOf(LEAVES);
  const made = Array.from({ length: SIZE + 1 }, (_, it) => beginning(it, LEAVES));
  for (const [first, one] of made.entries()) {
    for (const [second, other] of made.entries()) {
      const wanted = first === second ? BeginningComparison.SAME : BeginningComparison.TWO_LENGTHS;
      assert.equal(library.compareBeginnings(newer, one, other), wanted);
    }
  }
  assert.equal(await compareBeginnings(newer, made[2], made[2], { library }), BeginningComparison.SAME);
});

test("beginnings of one log with two maps are a fork", async () => {
  const [newer, one] = [checkpointOf(LEAVES), beginning(6, LEAVES)];
  const { logRoot, mapRoot } = one.checkpoint;
  const other = { ...one, checkpoint: { ...one.checkpoint, mapRoot: mapRootOf(LEAVES.slice(0, 5)) } };
  await compareFirst(newer, one, other, BeginningComparison.FORK);
  const same = { logRoot: upper(logRoot), logLength: 6, mapRoot: upper(mapRoot), timestamp: 7n };
  await compareFirst(newer, one, { ...one, checkpoint: same }, BeginningComparison.SAME);
  // The newer checkpoint's map is not looked at.
  await compareFirst({ ...newer, mapRoot: "none" }, one, other, BeginningComparison.FORK);
});

test("beginnings of which one is not shown, or neither", async () => {
  const [newer, one] = [checkpointOf(LEAVES), beginning(6, LEAVES)];
  const wrong = [
    { ...one, proof: "" },
    { ...one, proof: changed(one.proof) },
    { ...one, proof: beginning(5, LEAVES).proof },
    { ...one, checkpoint: checkpointOf(FORK.slice(0, 6)) },
    { ...one, checkpoint: checkpointOf(LEAVES.slice(0, 5)) },
    beginning(6, FORK),
  ];
  for (const it of wrong) {
    for (const right of [one, it]) await compareFirst(newer, it, right, BeginningComparison.NOT_SHOWN);
  }
  for (const it of [FORK, LEAVES.slice(0, 8), LEAVES.slice(0, 5)]) {
    await compareFirst(checkpointOf(it), one, one, BeginningComparison.NOT_SHOWN);
  }
});

test("beginnings of no form, of each side; the fault of the first proof comes first", () => {
  const [newer, one] = [checkpointOf(LEAVES), beginning(6, LEAVES)];
  const both = (wrong, isThrown) => {
    assert.throws(() => library.compareBeginnings(newer, wrong, one), isThrown);
    assert.throws(() => library.compareBeginnings(newer, one, wrong), isThrown);
  };
  for (const it of NO_HASHES) {
    both({ ...one, checkpoint: { ...one.checkpoint, logRoot: it } }, bad("BadText"));
    both({ ...one, checkpoint: { ...one.checkpoint, mapRoot: it } }, bad("BadText"));
    assert.throws(() => library.compareBeginnings({ ...newer, logRoot: it }, one, one), bad("BadText"));
  }
  for (const [proof, name] of Object.entries(FAULTS)) both({ ...one, proof }, bad(name));
  const [first, second] = [{ ...one, proof: "A" }, { ...one, proof: "AA==" }];
  assert.throws(() => library.compareBeginnings(newer, first, second), bad("BadBase64"));
  assert.throws(() => library.compareBeginnings(newer, second, first), bad("BadLength"));
  for (const logLength of NO_NUMBERS) {
    both({ ...one, checkpoint: { ...one.checkpoint, logLength } }, bad("OutOfRange"));
    assert.throws(() => library.compareBeginnings({ ...newer, logLength }, one, one), bad("OutOfRange"));
  }
  both({ ...one, proof: 7 }, TypeError);
});

test("a library that was given up compares nothing", async () => {
  const other = await Library.load();
  const [newer, one, head] = [checkpointOf(LEAVES), beginning(6, LEAVES), headOf(idOf("log 4"), LEAVES)];
  other.words = () => {
    throw new RangeError("the stack ends here");
  };
  assert.throws(() => other.compareHeads(ROOT, idOf("log 4"), head, head), /the stack ends here/);
  delete other.words;
  assert.throws(() => other.compareHeads(ROOT, idOf("log 4"), head, head), NotOpen);
  assert.throws(() => other.compareBeginnings(newer, one, one), NotOpen);
});

// What two checkpoints of a registry are to each other, and two leaves at one place of its log.
import "./place.js";
import assert from "node:assert/strict";
import { test } from "node:test";
import {
  BadArgument,
  CheckpointComparison,
  LeafComparison,
  Library,
  NotOpen,
  compareCheckpoints,
  compareLeaves,
  records,
} from "weoldrin";
import * as definitions from "./trees.js";

const idOf = (text) => records.sha256Text(Buffer.from(text));
const upper = (text) => text.slice(0, 7) + text.slice(7).toUpperCase();

// At this place a forked registry has another leaf, of a log that has no other one.
const [SIZE, PARTED] = [9, 4];
const LEAVES = Array.from({ length: SIZE }, (_, it) => ({
  logId: idOf(`log ${it === PARTED ? it : it % 4}`),
  recordId: idOf(`record ${it}`),
}));
const FORK = LEAVES.with(PARTED, { ...LEAVES[PARTED], recordId: idOf("forked") });
const NO_HASHES = ["", "sha256", "sha256:", "sha256:00", "!", "\0", "\ud800", `${idOf("x")}0`];
const FAULTS = { A: "BadBase64", "AA==": "BadLength", ["A".repeat(2733)]: "TooLong", "\ud800": "BadBase64" };
const NO_NUMBERS = [-1, -1n, 0.5, 2 ** 53, 2n ** 64n, "0", null, undefined];
const { SAME, GOES_ON, GOES_BACK, NOT_SHOWN } = CheckpointComparison;

const library = await Library.load();
const hashes = (leaves) => leaves.map(definitions.hashInLog);

/** The checkpoint of leaves by their definition. */
const checkpointOf = (leaves) => ({
  logRoot: definitions.hashText(definitions.logRoot(hashes(leaves))),
  logLength: BigInt(leaves.length),
  mapRoot: definitions.hashText(new definitions.SparseMap(leaves).root()),
});

const consistency = (first, leaves) => definitions.textOf(definitions.consistency(first, hashes(leaves)));

/** The leaf at a place, with its proof. */
const shown = (place, leaves) => ({
  checkpoint: checkpointOf(leaves),
  ...leaves[place],
  proof: definitions.textOf(definitions.inclusion(place, hashes(leaves))),
});

/** Another proof of the same length. */
function changed(proof) {
  const bytes = Buffer.from(proof, "base64");
  bytes[bytes.length - 1] ^= 1;
  return bytes.toString("base64");
}

/** A bad argument of a name. */
const bad = (name) => (error) => error instanceof BadArgument && error.name === name;

/** Whether two checkpoints compare so, by the library and by the one that is shared. */
async function compare(older, newer, proof, wanted) {
  assert.equal(library.compareCheckpoints(older, newer, proof), wanted);
  assert.equal(await compareCheckpoints(older, newer, proof), wanted);
}

test("checkpoints of one registry are the same, go on, and go back", async () => {
  const made = Array.from({ length: SIZE + 1 }, (_, it) => checkpointOf(LEAVES.slice(0, it)));
  for (const [first, older] of made.entries()) {
    for (const [second, newer] of made.entries()) {
      const proof = first < second ? consistency(first, LEAVES.slice(0, second)) : "";
      await compare(older, newer, proof, first === second ? SAME : first < second ? GOES_ON : GOES_BACK);
    }
  }
  assert.equal(library.compareCheckpoints(made[3], made[3]), SAME);
  assert.equal(await compareCheckpoints(made[3], made[3]), SAME);
  assert.equal(await compareCheckpoints(made[4], made[3], "", { library }), GOES_BACK);
});

test("neither times nor capitals nor proofs make checkpoints of one length others", async () => {
  const one = checkpointOf(LEAVES);
  const other = { ...one, logRoot: upper(one.logRoot), mapRoot: upper(one.mapRoot), logLength: SIZE, timestamp: 7n };
  for (const proof of ["", consistency(4, LEAVES)]) {
    await compare(one, other, proof, SAME);
    await compare(other, one, proof, SAME);
  }
});

test("of one length another root is a fork, whatever the proof", async () => {
  const [one, other] = [LEAVES, FORK].map(checkpointOf);
  for (const it of [{ ...one, mapRoot: other.mapRoot }, { ...one, logRoot: other.logRoot }, other]) {
    for (const proof of ["", consistency(4, LEAVES)]) {
      await compare(one, it, proof, CheckpointComparison.FORK);
      await compare(it, one, proof, CheckpointComparison.FORK);
    }
  }
  await compare(one, checkpointOf(FORK.slice(0, 8)), "", GOES_BACK);
});

test("what no proof shows to go on is not shown", async () => {
  const [older, newer, fork] = [LEAVES.slice(0, 6), LEAVES, FORK].map(checkpointOf);
  const proof = consistency(6, LEAVES);
  await compare(older, newer, proof, GOES_ON);
  for (const it of ["", changed(proof), consistency(7, LEAVES), consistency(6, FORK)]) {
    await compare(older, newer, it, NOT_SHOWN);
  }
  for (const it of ["", proof, consistency(6, FORK)]) await compare(older, fork, it, NOT_SHOWN);
  await compare(checkpointOf(LEAVES.slice(0, PARTED)), fork, consistency(PARTED, FORK), GOES_ON);
  const last = { ...newer, logLength: 2n ** 64n - 1n };
  await compare(newer, last, "", NOT_SHOWN);
  await compare(last, newer, "", GOES_BACK);
  await compare(last, last, "", SAME);
});

test("checkpoints of no form", async () => {
  const [one, other] = [LEAVES, LEAVES.slice(0, 8)].map(checkpointOf);
  for (const it of NO_HASHES) {
    for (const wrong of [{ ...other, logRoot: it }, { ...other, mapRoot: it }]) {
      assert.throws(() => library.compareCheckpoints(wrong, one), bad("BadText"));
      assert.throws(() => library.compareCheckpoints(one, wrong), bad("BadText"));
    }
  }
  for (const [it, name] of Object.entries(FAULTS)) {
    assert.throws(() => library.compareCheckpoints(other, one, it), bad(name));
    await assert.rejects(compareCheckpoints(other, one, it), bad(name));
  }
  for (const logLength of NO_NUMBERS) {
    assert.throws(() => library.compareCheckpoints({ ...one, logLength }, one), bad("OutOfRange"));
    assert.throws(() => library.compareCheckpoints(one, { ...one, logLength }), bad("OutOfRange"));
  }
  for (const it of [null, 7, Buffer.from("text")]) {
    assert.throws(() => library.compareCheckpoints({ ...one, mapRoot: it }, one), TypeError);
    assert.throws(() => library.compareCheckpoints(one, other, it), TypeError);
  }
  assert.equal(library.compareCheckpoints(one, one), SAME);
});

test("leaves that are the same, at each place that both logs have", async () => {
  for (let length = 1; length < SIZE; length++) {
    for (let place = 0; place < length; place++) {
      const [one, other] = [LEAVES.slice(0, length), LEAVES].map((it) => shown(place, it));
      assert.equal(library.compareLeaves(place, one, other), LeafComparison.SAME);
      assert.equal(await compareLeaves(BigInt(place), other, one, { library }), LeafComparison.SAME);
    }
  }
  const one = shown(4, LEAVES);
  const capitals = { ...one, logId: upper(one.logId), recordId: upper(one.recordId) };
  assert.equal(library.compareLeaves(4, one, capitals), LeafComparison.SAME);
});

test("leaves that differ, under checkpoints of one length and of two", async () => {
  for (let length = PARTED + 1; length <= SIZE; length++) {
    const own = LEAVES.slice(0, length);
    assert.equal(library.compareLeaves(PARTED, shown(PARTED, own), shown(PARTED, FORK)), LeafComparison.FORK);
    assert.equal(await compareLeaves(PARTED, shown(PARTED, FORK), shown(PARTED, own)), LeafComparison.FORK);
    assert.equal(library.compareLeaves(3, shown(3, own), shown(3, FORK)), LeafComparison.SAME);
  }
});

test("leaves of which one is not shown, or neither", () => {
  const [one, other] = [shown(4, LEAVES.slice(0, 6)), shown(4, FORK)];
  const wrong = [
    { ...one, proof: "" },
    { ...one, proof: changed(one.proof) },
    { ...one, proof: other.proof },
    { ...one, recordId: other.recordId },
    { ...one, logId: other.recordId },
    { ...one, checkpoint: other.checkpoint },
  ];
  for (const it of wrong) {
    for (const right of [one, other, it]) {
      assert.equal(library.compareLeaves(4, it, right), LeafComparison.NOT_SHOWN);
      assert.equal(library.compareLeaves(4, right, it), LeafComparison.NOT_SHOWN);
    }
  }
  for (const place of [3, 5, 6, 2n ** 63n, 2n ** 64n - 1n]) {
    assert.equal(library.compareLeaves(place, one, other), LeafComparison.NOT_SHOWN);
  }
  // The map is not looked at.
  const noMap = { ...one, checkpoint: { ...one.checkpoint, mapRoot: "none" } };
  assert.equal(library.compareLeaves(4, noMap, other), LeafComparison.FORK);
});

test("leaves of no form, of each side; the fault of the older leaf's proof comes first", () => {
  const [one, other] = [shown(4, LEAVES.slice(0, 6)), shown(4, FORK)];
  const both = (wrong, isThrown) => {
    assert.throws(() => library.compareLeaves(4, wrong, other), isThrown);
    assert.throws(() => library.compareLeaves(4, other, wrong), isThrown);
  };
  for (const it of NO_HASHES) {
    both({ ...one, logId: it }, bad("BadText"));
    both({ ...one, recordId: it }, bad("BadText"));
    both({ ...one, checkpoint: { ...one.checkpoint, logRoot: it } }, bad("BadText"));
  }
  for (const [it, name] of Object.entries(FAULTS)) both({ ...one, proof: it }, bad(name));
  const [first, second] = [{ ...one, proof: "A" }, { ...one, proof: "AA==" }];
  assert.throws(() => library.compareLeaves(4, first, second), bad("BadBase64"));
  assert.throws(() => library.compareLeaves(4, second, first), bad("BadLength"));
  for (const it of NO_NUMBERS) {
    assert.throws(() => library.compareLeaves(it, one, other), bad("OutOfRange"));
    both({ ...one, checkpoint: { ...one.checkpoint, logLength: it } }, bad("OutOfRange"));
  }
  both({ ...one, recordId: 7 }, TypeError);
});

test("a library that was given up compares nothing", async () => {
  const other = await Library.load();
  const one = checkpointOf(LEAVES);
  other.words = () => {
    throw new RangeError("the stack ends here");
  };
  assert.throws(() => other.compareCheckpoints(one, one), /the stack ends here/);
  delete other.words;
  assert.throws(() => other.compareCheckpoints(one, one), NotOpen);
  assert.throws(() => other.compareLeaves(4, shown(4, LEAVES), shown(4, LEAVES)), NotOpen);
});

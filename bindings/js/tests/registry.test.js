// The trees of a registry: what each call gives, beside trees that are made by the definitions, that each proof is one
// which the library verifies, and what is thrown.
import "./place.js";
import assert from "node:assert/strict";
import { test } from "node:test";
import {
  BadArgument,
  Library,
  NotOpen,
  OperatorLog,
  PackageLog,
  RegistryTrees,
  Trapped,
  checkpoints,
  p256,
  records,
} from "weoldrin";
import { record } from "./published.js";
import * as definitions from "./trees.js";

const idOf = (text) => records.sha256Text(Buffer.from(text));
const upper = (text) => text.slice(0, 7) + text.slice(7).toUpperCase();

/** The id that parts from another one at a bit, counted from the first. */
function parted(id, bit) {
  const bytes = Buffer.from(id.slice(7), "hex");
  bytes[bit >> 3] ^= 128 >> (bit & 7);
  return definitions.hashText(bytes);
}

const SIZES = 70;
// Logs whose ids part early, one that parts from the first at the last bit, and one that does so in the middle.
const LOGS = [0, 1, 2, 3].map((it) => idOf(`log ${it}`));
LOGS.push(parted(LOGS[0], 255), parted(LOGS[0], 127));
const ABSENT = [idOf("log 9"), parted(LOGS[1], 255), parted(LOGS[0], 128), LOGS[0].slice(0, -64) + "0".repeat(64)];
// Some logs have a leaf soon and often, and the last one late.
const LEAVES = Array.from({ length: SIZES }, (_, place) => ({
  logId: LOGS[place === 50 ? 5 : (place * place) % 7],
  recordId: idOf(`record ${place}`),
}));
const TOO_FAR = [2 ** 32, 2 ** 53 - 1, 2n ** 53n, 2n ** 63n, 2n ** 64n - 1n];
const NO_NUMBERS = [-1, -1n, 0.5, NaN, Infinity, 2 ** 53, 2 ** 60, 2n ** 64n, "0", null, undefined, true];
const NO_IDS = [
  ...["", "sha256", "sha256:", "sha256:00", `sha512:${"0".repeat(64)}`, `sha256:${"g".repeat(64)}`, "0".repeat(64)],
  ...[`${LOGS[0]} `, LOGS[0].slice(0, -1), `${LOGS[0]}00`, "é", "\ud800", "\0", "a".repeat(1 << 20)],
];
const NO_TEXTS = [null, undefined, 7, Buffer.from("text"), [LOGS[0]]];

const library = await Library.load();

/** A bad argument of a name, which has a sentence too. */
const bad = (name) => (error) => error instanceof BadArgument && error.name === name && error.sentence !== "";

/** Trees of leaves. */
function treesOf(leaves, over = library) {
  const trees = new RegistryTrees(over);
  leaves.forEach((it, place) => assert.strictEqual(trees.push(it.logId, it.recordId), place));
  return trees;
}

/** What trees say of the moment. */
const said = (trees) => [
  ...[trees.length, trees.roots(), trees.inclusion(0), trees.consistency(1)],
  ...[...LOGS, ...ABSENT].map((it) => trees.head(it)),
];

/** The roots of leaves by definition. */
const rootsOf = (leaves) => ({
  logRoot: definitions.hashText(definitions.logRoot(leaves.map(definitions.hashInLog))),
  mapRoot: definitions.hashText(new definitions.SparseMap(leaves).root()),
});

/** The proofs of places of the log, each by definition, and verified. */
function checkLog(trees, leaves, roots, before) {
  const [size, hashes] = [leaves.length, leaves.map(definitions.hashInLog)];
  leaves.forEach(({ logId, recordId }, place) => {
    const proof = trees.inclusion(place);
    assert.equal(proof, definitions.textOf(definitions.inclusion(place, hashes)));
    assert.ok(library.verifyInclusion(logId, recordId, place, size, roots.logRoot, proof));
    assert.ok(!library.verifyInclusion(logId, idOf("another"), place, size, roots.logRoot, proof));
  });
  for (let first = 0; first <= size; first++) {
    const proof = trees.consistency(first);
    assert.equal(proof, definitions.textOf(definitions.consistency(first, hashes)));
    assert.ok(library.verifyConsistency(first, before[first].logRoot, size, roots.logRoot, proof));
  }
  assert.equal(trees.inclusion(BigInt(size)), null);
  assert.equal(trees.consistency(BigInt(size)), "");
  for (const it of [size + 1, ...TOO_FAR]) {
    assert.deepEqual([trees.inclusion(it), trees.consistency(it)], [null, null], String(it));
  }
}

/** The heads of logs, each with its proof by definition, which is verified. */
function checkMap(trees, leaves, { mapRoot }) {
  const map = new definitions.SparseMap(leaves);
  for (const logId of [...LOGS, ...ABSENT]) {
    const last = leaves.filter((it) => it.logId === logId).at(-1);
    const head = trees.head(logId);
    assert.deepEqual(head, { recordId: last?.recordId ?? null, proof: map.proof(logId) });
    assert.ok(Object.isFrozen(head));
    const isAbsent = library.verifyAbsence(logId, mapRoot, head.proof);
    const isPresent = library.verifyPresence(logId, head.recordId ?? idOf("record 0"), mapRoot, head.proof);
    assert.deepEqual([isPresent, isAbsent], [last !== undefined, last === undefined]);
  }
}

test("each size, each place and each log", async () => {
  const trees = await RegistryTrees.open({ library });
  assert.equal(trees.library, library);
  const before = [];
  for (let size = 0; size <= SIZES; size++) {
    const leaves = LEAVES.slice(0, size);
    const roots = rootsOf(leaves);
    before.push(roots);
    assert.strictEqual(trees.length, size);
    assert.deepEqual(trees.roots(), roots);
    assert.ok(Object.isFrozen(trees.roots()));
    checkLog(trees, leaves, roots, before);
    checkMap(trees, leaves, roots);
    const next = LEAVES[size];
    if (next) assert.strictEqual(trees.push(next.logId, next.recordId), size);
  }
  trees.close();
});

test("a leaf may come again, and a head may come back", () => {
  const [first, second] = LEAVES;
  const leaves = [first, first, second, { ...first, recordId: second.recordId }, first, second, second];
  const trees = treesOf(leaves);
  assert.deepEqual(trees.roots(), rootsOf(leaves));
  checkLog(trees, leaves, trees.roots(), leaves.map((_, it) => rootsOf(leaves.slice(0, it))).concat(trees.roots()));
  checkMap(trees, leaves, trees.roots());
  trees.close();
});

test("ids are read in either case of their digits", () => {
  const trees = treesOf(LEAVES.map(({ logId, recordId }) => ({ logId: upper(logId), recordId: upper(recordId) })));
  const other = treesOf(LEAVES);
  assert.deepEqual(said(trees), said(other));
  assert.deepEqual(trees.head(upper(LOGS[1])), other.head(LOGS[1]));
  for (const it of [trees, other]) it.close();
});

test("ids that part from one another at each bit make the longest proof", () => {
  const leaves = Array.from({ length: 257 }, (_, bit) => ({
    logId: bit === 256 ? LOGS[0] : parted(LOGS[0], bit),
    recordId: idOf(`record ${bit}`),
  }));
  const trees = treesOf(leaves);
  const map = new definitions.SparseMap(leaves);
  const { mapRoot } = trees.roots();
  assert.equal(mapRoot, definitions.hashText(map.root()));
  assert.equal(trees.head(LOGS[0]).proof.length, 10968);
  for (const { logId, recordId } of leaves) {
    const head = trees.head(logId);
    assert.deepEqual(head, { recordId, proof: map.proof(logId) });
    assert.ok(library.verifyPresence(logId, recordId, mapRoot, head.proof));
  }
  trees.close();
});

test("a checkpoint of the moment is signed, published and verified", async () => {
  const [trees, operators, signer] = [treesOf(LEAVES), new OperatorLog(library), await p256.SigningKey.generate()];
  await operators.append(await record(operators, signer, [records.init(signer.publicKey)]));
  for (const timestamp of [0, 5, 2 ** 53 - 1, 2n ** 53n, 2n ** 64n - 1n]) {
    const checkpoint = trees.checkpoint(timestamp);
    const wanted = { ...rootsOf(LEAVES), logLength: BigInt(SIZES), timestamp: BigInt(timestamp) };
    assert.deepEqual(checkpoint, wanted);
    assert.ok(Object.isFrozen(checkpoint));
    const signature = await signer.sign(library.checkpointMessage(checkpoint));
    const text = checkpoints.signedToJson({ checkpoint, keyId: records.keyId(signer.publicKey), signature });
    const read = checkpoints.parseSigned(text);
    assert.deepEqual(read.checkpoint, wanted);
    assert.ok(operators.verifyCheckpoint(read.checkpoint, read.keyId, read.signature));
  }
  trees.push(LOGS[0], idOf("record"));
  assert.equal(trees.checkpoint(0).logLength, BigInt(SIZES + 1));
  for (const it of [trees, operators]) it.close();
});

/** The bytes of leaves by their definition. */
const savedOf = (leaves) =>
  Buffer.concat(leaves.flatMap((it) => [it.logId, it.recordId]).map((it) => Buffer.from(it.slice(7), "hex")));

test("trees of the bytes of leaves are those to which they were pushed, and go on", async () => {
  for (const size of [0, 1, 2, 3, 7, 8, SIZES - 1]) {
    const [pushed, leaves] = [treesOf(LEAVES.slice(0, size)), LEAVES.slice(0, size)];
    const made = await RegistryTrees.fromBytes(savedOf(LEAVES).subarray(0, 64 * size), { library });
    assert.equal(made.library, library);
    for (const next of [LEAVES[size], { logId: LOGS[3], recordId: idOf("last") }]) {
      assert.deepEqual(said(made), said(pushed));
      assert.deepEqual(made.roots(), rootsOf(leaves));
      checkMap(made, leaves, made.roots());
      for (const it of [made, pushed]) {
        const saved = it.toBytes();
        assert.ok(saved instanceof Uint8Array && savedOf(leaves).equals(saved), String(size));
        assert.equal(it.push(next.logId, next.recordId), leaves.length);
      }
      leaves.push(next);
    }
    for (const it of [made, pushed]) it.close();
  }
});

test("leaves that come again, more of them than there is room at first, and bytes of any view", async () => {
  const leaves = [...LEAVES, ...LEAVES.slice(0, 30), ...LEAVES.slice(20)];
  const [pushed, saved] = [treesOf(leaves), savedOf(leaves)];
  const views = [saved, new DataView(saved.buffer, saved.byteOffset, saved.length), new Uint8Array(saved).buffer];
  for (const it of views) {
    const waited = RegistryTrees.fromBytes(it, { library });
    const made = await waited;
    assert.deepEqual([said(made), made.consistency(77)], [said(pushed), pushed.consistency(77)]);
    assert.ok(saved.equals(made.toBytes()));
    made.close();
  }
  // What is passed is read at once, and what is given stays.
  const changed = new Uint8Array(saved);
  const waited = RegistryTrees.fromBytes(changed);
  changed.fill(0);
  const made = await waited;
  const given = made.toBytes();
  made.push(LOGS[0], LOGS[0]);
  assert.ok(saved.equals(given));
  for (const it of [made, pushed]) it.close();
});

test("bytes that are no multiple of 64 are no leaves", async () => {
  for (const length of [1, 31, 32, 63, 65, 127, 64 * 70 + 32]) {
    await assert.rejects(RegistryTrees.fromBytes(new Uint8Array(length), { library }), bad("BadLength"));
  }
  for (const it of ["", "00", 64, null, undefined, [0]]) {
    await assert.rejects(RegistryTrees.fromBytes(it, { library }), TypeError);
  }
  await assert.rejects(RegistryTrees.fromBytes(new Uint8Array(64), { library: {} }), TypeError);
});

test("what is refused leaves the trees as they were", () => {
  for (const leaves of [[], LEAVES]) {
    const trees = treesOf(leaves);
    const before = said(trees);
    for (const it of NO_IDS) {
      const calls = [() => trees.push(it, LOGS[0]), () => trees.push(LOGS[0], it), () => trees.head(it)];
      for (const call of calls) assert.throws(call, bad("BadText"), it.slice(0, 80));
    }
    for (const it of NO_TEXTS) {
      const calls = [() => trees.push(it, LOGS[0]), () => trees.push(LOGS[0], it), () => trees.head(it)];
      for (const call of calls) assert.throws(call, TypeError);
    }
    for (const it of NO_NUMBERS) {
      const calls = [() => trees.inclusion(it), () => trees.consistency(it), () => trees.checkpoint(it)];
      for (const call of calls) assert.throws(call, bad("OutOfRange"), String(it));
    }
    assert.deepEqual(said(trees), before);
    assert.equal(trees.push(LOGS[0], idOf("record")), leaves.length);
    trees.close();
  }
});

test("trees that were closed say so", async () => {
  const trees = treesOf(LEAVES);
  trees.close();
  trees.close();
  const calls = [
    () => trees.push(LOGS[0], LOGS[1]),
    () => trees.push("", ""),
    () => trees.length,
    () => trees.roots(),
    () => trees.checkpoint(0),
    () => trees.checkpoint(-1),
    () => trees.inclusion(0),
    () => trees.inclusion(-1),
    () => trees.consistency(0),
    () => trees.head(LOGS[0]),
    () => trees.head(7),
    () => trees.toBytes(),
  ];
  const isSaid = (error) => error instanceof NotOpen && /trees of the registry were closed/.test(error.message);
  for (const call of calls) assert.throws(call, isSaid);
  if (Symbol.dispose) {
    const other = await RegistryTrees.open();
    other[Symbol.dispose]();
    assert.throws(() => other.length, isSaid);
  }
});

test("two at once are two, of one library and of two", async () => {
  for (const second of [library, await Library.load()]) {
    const [left, right] = [new RegistryTrees(library), new RegistryTrees(second)];
    const [odd, even] = [1, 0].map((rest) => LEAVES.filter((_, place) => place % 2 === rest));
    even.forEach((it, place) => {
      left.push(it.logId, it.recordId);
      right.push(odd[place].logId, odd[place].recordId);
      assert.deepEqual([left.length, right.length], [place + 1, place + 1]);
    });
    assert.deepEqual([left.roots(), right.roots()], [rootsOf(even), rootsOf(odd)]);
    const alone = treesOf(odd);
    left.close();
    assert.deepEqual(said(right), said(alone));
    for (const it of [right, alone]) it.close();
  }
});

test("what is given stays, whatever is pushed then", () => {
  const trees = treesOf(LEAVES.slice(0, 9));
  const [proofs, heads] = [[trees.inclusion(3), trees.consistency(5)], LOGS.map((it) => trees.head(it))];
  const [root, copies] = [trees.roots(), JSON.stringify([proofs, heads])];
  for (const it of LEAVES) trees.push(it.logId, it.recordId);
  assert.equal(JSON.stringify([proofs, heads]), copies);
  assert.deepEqual(root, rootsOf(LEAVES.slice(0, 9)));
  trees.close();
});

test("calls are of trees, and those of logs of logs", async () => {
  assert.throws(() => new RegistryTrees(), /await RegistryTrees.open\(\)/);
  await assert.rejects(() => RegistryTrees.open({ library: {} }), TypeError);
  const [trees, log] = [treesOf(LEAVES), new PackageLog(library)];
  const before = said(trees);
  const { push, inclusion, consistency, head, roots, toBytes } = RegistryTrees.prototype;
  for (const it of [push, inclusion, consistency, head, roots, toBytes]) {
    assert.throws(() => it.call(log, LOGS[0], LOGS[1]), TypeError);
  }
  assert.throws(() => Reflect.get(RegistryTrees.prototype, "length", log), TypeError);
  assert.throws(() => Reflect.get(PackageLog.prototype, "length", trees), TypeError);
  assert.throws(() => PackageLog.prototype.head.call(trees), TypeError);
  assert.throws(() => log.compare(trees), TypeError);
  assert.deepEqual([said(trees), log.length, log.head()], [before, 0, null]);
  for (const it of [trees, log]) it.close();
});

test("a push whose place can't be had gives the library up", async () => {
  const other = await Library.load();
  const [trees, log] = [treesOf(LEAVES, other), new PackageLog(other)];
  other.words = () => {
    throw new RangeError("the stack ends here");
  };
  assert.throws(() => trees.push(LOGS[0], LOGS[1]), Trapped);
  delete other.words;
  for (const call of [() => trees.length, () => log.length, () => new RegistryTrees(other)]) {
    assert.throws(call, (error) => error instanceof NotOpen && /trapped/.test(error.sentence));
  }
  trees.close();
});

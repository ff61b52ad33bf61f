// The memory of the trees of a registry: it is given back, it is refused, and the stack ends.
import { collect } from "./place.js";
import assert from "node:assert/strict";
import { setTimeout as after } from "node:timers/promises";
import { test } from "node:test";
import {
  BadArgument,
  Library,
  NotOpen,
  OutOfMemory,
  PackageLog,
  RegistryTrees,
  WeoldrinError,
  records,
} from "weoldrin";
import { atTheEnd, fill } from "./limits.js";
import { SparseMap, hashInLog, hashText, logRoot } from "./trees.js";

const idOf = (text) => records.sha256Text(Buffer.from(text));
const LEAVES = Array.from({ length: 40 }, (_, place) => ({
  logId: idOf(`log ${place % 7}`),
  recordId: idOf(`record ${place}`),
}));
const [{ logId, recordId }] = LEAVES;

/** Pushes leaves. */
const push = (trees, leaves) => leaves.forEach((it) => trees.push(it.logId, it.recordId));

/** Trees of leaves. */
function treesOf(library, leaves = LEAVES) {
  const trees = new RegistryTrees(library);
  push(trees, leaves);
  return trees;
}

/** What trees say of the moment. */
const said = (trees) => JSON.stringify([trees.length, trees.roots(), trees.inclusion(1), trees.head(logId)]);

/** What trees of leaves say. */
function saidOf(library, leaves) {
  const trees = treesOf(library, leaves);
  const found = said(trees);
  trees.close();
  return found;
}

const used = (library) => library.memory().used;

/** Waits until no more is in use, and says how much is. */
async function settled(library, wanted) {
  for (let turn = 0; turn < 100 && used(library) !== wanted; turn++) {
    collect();
    await after(10);
  }
  return used(library);
}

test("the memory of trees is given back where they are closed", async () => {
  const library = await Library.load();
  saidOf(library, LEAVES);
  const before = used(library);
  for (let turn = 0; turn < 50; turn++) {
    const trees = treesOf(library);
    said(trees);
    trees.consistency(3);
    assert.throws(() => trees.push(logId, "x"), BadArgument);
    assert.throws(() => trees.head("x"), BadArgument);
    assert.deepEqual([trees.inclusion(99), trees.consistency(99)], [null, null]);
    assert.ok(used(library) > before + 1000);
    trees.close();
    assert.equal(used(library), before);
  }
});

test("trees that were closed may be closed again, beside logs and others", async () => {
  const library = await Library.load();
  saidOf(library, LEAVES);
  const before = used(library);
  for (let turn = 0; turn < 20; turn++) {
    const trees = treesOf(library);
    trees.close();
    // What lies where they lay is another's.
    const [other, log] = [treesOf(library), new PackageLog(library)];
    const inUse = used(library);
    trees.close();
    trees.close();
    assert.deepEqual([used(library), other.length, log.length, library.isGivenUp], [inUse, 40, 0, false]);
    for (const it of [other, log]) it.close();
    assert.equal(used(library), before);
  }
});

test("trees that are forgotten are closed, and closed ones not once more", async () => {
  const library = await Library.load();
  saidOf(library, LEAVES);
  const before = used(library);
  // In functions of their own, which leave nothing that holds the last ones.
  const forget = () => {
    for (let turn = 0; turn < 100; turn++) treesOf(library);
  };
  const close = () => {
    for (let turn = 0; turn < 100; turn++) new RegistryTrees(library).close();
  };
  forget();
  assert.ok(used(library) > before);
  assert.equal(await settled(library, before), before);
  close();
  const kept = treesOf(library);
  const [inUse, told] = [used(library), said(kept)];
  for (let turn = 0; turn < 5; turn++) {
    collect();
    await after(10);
  }
  assert.deepEqual([library.isGivenUp, used(library), said(kept)], [false, inUse, told]);
  kept.close();
});

test("memory grows in the midst of pushes and of what is given", async () => {
  const library = await Library.load();
  const [trees, size] = [new RegistryTrees(library), library.memory().size];
  const leaves = Array.from({ length: 1500 }, (_, place) => ({
    logId: idOf(`log ${place % 200}`),
    recordId: idOf(`record ${place}`),
  }));
  push(trees, leaves);
  assert.ok(library.memory().size > size);
  const [root, map] = [logRoot(leaves.map(hashInLog)), new SparseMap(leaves)];
  assert.deepEqual(trees.roots(), { logRoot: hashText(root), mapRoot: hashText(map.root()) });
  const head = { recordId: leaves[1407].recordId, proof: map.proof(leaves[7].logId) };
  assert.deepEqual(trees.head(leaves[7].logId), head);
  trees.close();
});

test("trees that there is no room for leave nothing behind", async () => {
  const library = await Library.load();
  library.limit(library.memory().size);
  const handle = library.taken(16);
  const giveBack = fill(library);
  library.givenBack(handle);
  const before = used(library);
  for (let turn = 0; turn < 3; turn++) {
    assert.throws(() => new RegistryTrees(library), OutOfMemory);
    assert.equal(used(library), before);
  }
  giveBack();
  new RegistryTrees(library).close();
});

test("trees of bytes that there is no room for leave nothing behind, nor do those of no leaves", async () => {
  const library = await Library.load();
  const trees = treesOf(library);
  const saved = trees.toBytes();
  trees.close();
  const many = new Uint8Array(64 * 4000).map((_, place) => place * 7 + (place >> 6));
  // What calls are passed is kept in part, until one gives something.
  const settle = () => library.version();
  settle();
  const before = used(library);
  for (let turn = 0; turn < 20; turn++) {
    const made = await RegistryTrees.fromBytes(saved, { library });
    assert.equal(made.length, LEAVES.length);
    made.toBytes();
    made.close();
    await assert.rejects(RegistryTrees.fromBytes(saved.subarray(1), { library }), BadArgument);
    settle();
    assert.equal(used(library), before);
  }
  library.limit(library.memory().size);
  for (let turn = 0; turn < 3; turn++) {
    await assert.rejects(RegistryTrees.fromBytes(many, { library }), OutOfMemory);
    settle();
    assert.equal(used(library), before);
  }
  (await RegistryTrees.fromBytes(saved, { library })).close();
});

test("where growth is refused, each call says so or does without, and the trees are as they were", async () => {
  const library = await Library.load();
  const [trees, other] = [treesOf(library), treesOf(library, LEAVES.slice(0, 3))];
  const calls = {
    length: () => trees.length,
    roots: () => trees.roots(),
    checkpoint: () => trees.checkpoint(5),
    inclusion: () => trees.inclusion(7),
    consistency: () => trees.consistency(7),
    head: () => trees.head(logId),
    "head of an absent log": () => trees.head(recordId),
    "push of no id": () => trees.push(logId, ""),
    open: () => new RegistryTrees(library).close(),
  };
  const wanted = Object.fromEntries(["length", "roots", "head"].map((it) => [it, calls[it]()]));
  const refused = [];
  for (const [name, call] of Object.entries(calls)) {
    const before = [said(trees), said(other)];
    library.limit(library.memory().size);
    const giveBack = fill(library);
    try {
      const given = call();
      if (name in wanted) assert.deepEqual(given, wanted[name]);
    } catch (error) {
      assert.ok(error instanceof WeoldrinError, `${name}: ${error}`);
      if (error instanceof OutOfMemory) refused.push(name);
    }
    giveBack();
    library.limit(Number.MAX_SAFE_INTEGER);
    assert.deepEqual([said(trees), said(other)], before, name);
  }
  for (const it of ["roots", "head", "open"]) assert.ok(refused.includes(it), it);
  assert.ok(!refused.includes("length"));
  for (const it of [trees, other]) it.close();
});

test("a push that there is no memory for is none, and made again it is one", async () => {
  const library = await Library.load();
  const trees = treesOf(library, []);
  const found = [];
  // Some pushes do without more memory: those that do not are told, until each has been tried.
  for (let place = 0; place < LEAVES.length; place++) {
    const next = LEAVES[place];
    library.limit(library.memory().size);
    const giveBack = fill(library);
    let error = null;
    try {
      assert.equal(trees.push(next.logId, next.recordId), place);
    } catch (it) {
      error = it;
      assert.ok(it instanceof OutOfMemory, String(it));
      assert.equal(trees.length, place);
    }
    giveBack();
    library.limit(Number.MAX_SAFE_INTEGER);
    if (error) {
      found.push(place);
      assert.equal(said(trees), saidOf(library, LEAVES.slice(0, place)));
      assert.equal(trees.push(next.logId, next.recordId), place);
    }
  }
  assert.ok(found.length > 0, "each push did without memory");
  assert.equal(said(trees), saidOf(library, LEAVES));
  trees.close();
});

test("texts that there is no memory for are told", async () => {
  const library = await Library.load({ maximum: 4_000_000 });
  const trees = treesOf(library);
  const [before, long] = [said(trees), "a".repeat(5_000_000)];
  for (const call of [() => trees.push(long, recordId), () => trees.push(logId, long), () => trees.head(long)]) {
    assert.throws(call, OutOfMemory);
  }
  assert.equal(said(trees), before);
  trees.close();
});

test("a limit bounds what trees may take", async () => {
  const library = await Library.load();
  const trees = new RegistryTrees(library);
  const most = library.memory().size + 200_000;
  library.limit(most);
  const leaves = [];
  let refused;
  while (!refused && leaves.length < 10_000) {
    const next = { logId: idOf(`log ${leaves.length % 5}`), recordId: idOf(`record ${leaves.length}`) };
    try {
      trees.push(next.logId, next.recordId);
      leaves.push(next);
    } catch (error) {
      refused = error;
    }
  }
  assert.ok(refused instanceof OutOfMemory, String(refused));
  assert.ok(library.memory().size <= most);
  assert.equal(trees.length, leaves.length);
  trees.close();
  const again = treesOf(library);
  assert.equal(again.length, LEAVES.length);
  again.close();
});

test("where the engine's stack ends, the trees are closed, and no push is done that threw", async () => {
  const { module } = await Library.load();
  const wanted = saidOf(new Library(module), LEAVES);
  let trapped = 0;
  for (let turn = 0; turn < 10; turn++) {
    const library = new Library(module);
    const [trees, log] = [treesOf(library), new PackageLog(library)];
    let done = 0;
    const call = [
      () => {
        trees.push(logId, recordId);
        // Nothing is called here, which the stack could end in.
        done += 1;
      },
      () => trees.head(logId),
    ][turn % 2];
    atTheEnd(call);
    if (library.isGivenUp) {
      trapped++;
      const calls = [
        () => trees.length,
        () => trees.push(logId, recordId),
        () => log.head(),
        () => new RegistryTrees(library),
      ];
      for (const it of calls) assert.throws(it, (error) => error instanceof NotOpen && /trapped/.test(error.sentence));
      trees.close();
      trees.close();
    } else {
      assert.equal(trees.length, LEAVES.length + done);
      if (!done) assert.equal(said(trees), wanted);
    }
  }
  assert.ok(trapped > 0, "no stack ended in the library");
  // Another library serves from then on.
  const trees = await RegistryTrees.open();
  assert.equal(trees.push(logId, recordId), 0);
  trees.close();
});

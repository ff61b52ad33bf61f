// The module's memory: it is given back, it grows under what is held of it, it is refused, and the stack ends.
import { collect } from "./place.js";
import assert from "node:assert/strict";
import { setTimeout as after } from "node:timers/promises";
import { test } from "node:test";
import {
  Library,
  NotOpen,
  OperatorLog,
  OutOfMemory,
  PackageLog,
  Trapped,
  WeoldrinError,
  p256,
  records,
} from "weoldrin";
import { atTheEnd, fill } from "./limits.js";
import { START, envelopes, keys, operatorLog, record } from "./published.js";

const [alice, bob] = await keys();
const made = await envelopes(4, alice, bob);
// The library's calls, but for those on trees, that which closes, and that which names a status to who writes C.
const EXPORTS = WebAssembly.Module.exports((await Library.load()).module).map((it) => it.name);
const IS_TRIED = /^warg_(?!registry_|close$|status_name$)/;
const CALLS = EXPORTS.filter((it) => IS_TRIED.test(it)).map((it) => it.slice("warg_".length)).sort();
// These take none: what is no envelope is told by its first bytes, and the others give numbers, or a text of theirs.
const WITHOUT_MEMORY = ["append_signed what is none", "head_of", "length", "compare", "version"];

/** How much is in use, when what calls were passed and gave is no longer kept. */
function used(library) {
  return library.memory().used;
}

test("a log's memory is given back where it is closed", async () => {
  const library = await Library.load();
  const once = () => {
    const log = new PackageLog(library);
    for (const it of made) log.appendSigned(it);
    assert.throws(() => log.appendSigned(made[0]), WeoldrinError);
    assert.throws(() => log.ask(Buffer.from("0b", "hex")), WeoldrinError);
    assert.throws(() => log.latest(">=x"), WeoldrinError);
    assert.equal(log.latest(">=1").version, "1.3.0");
    assert.equal([...log.records()].length, 4);
    log.chain(records.keyId(bob.publicKey), "release");
    return log;
  };
  once().close();
  const before = used(library);
  for (let turn = 0; turn < 200; turn++) {
    const log = once();
    assert.ok(used(library) > before + 1000);
    log.close();
    assert.equal(used(library), before);
  }
});

test("a log that was closed may be closed again", async () => {
  const library = await Library.load();
  const first = new PackageLog(library);
  first.appendSigned(made[0]);
  first.close();
  const before = used(library);
  for (let turn = 0; turn < 20; turn++) {
    const log = new PackageLog(library);
    log.appendSigned(made[0]);
    log.close();
    assert.equal(used(library), before);
    // What lies where it lay is another's.
    const other = new PackageLog(library);
    other.appendSigned(made[0]);
    const inUse = used(library);
    log.close();
    log.close();
    assert.deepEqual([used(library), other.length, library.isGivenUp], [inUse, 1, false]);
    const calls = [() => log.head(), () => log.length, () => log.appendSigned(made[1]), () => other.compare(log)];
    for (const call of calls) assert.throws(call, NotOpen);
    other.close();
    assert.equal(used(library), before);
  }
});

test("a handle begins as no log, whatever lay there", async () => {
  const library = await Library.load();
  // Of pieces that were given back, with others between them, the heap keeps a list, whose links lie in them.
  const pieces = Array.from({ length: 60 }, () => library.taken(16));
  for (const it of pieces.filter((_, place) => place % 2)) library.givenBack(it);
  const logs = Array.from({ length: 40 }, () => new PackageLog(library));
  for (const it of logs) it.appendSigned(made[0]);
  assert.deepEqual([library.isGivenUp, ...logs.map((it) => it.length)], [false, ...logs.map(() => 1)]);
  for (const it of logs) it.close();
});

test("a resumed log's memory too, and that of one that could not be resumed", async () => {
  const library = await Library.load();
  const log = new PackageLog(library);
  for (const it of made.slice(0, 3)) log.appendSigned(it);
  const saved = log.toJson();
  (await PackageLog.fromJson(saved, { library })).close();
  const before = used(library);
  for (let turn = 0; turn < 50; turn++) {
    const resumed = await PackageLog.fromJson(saved, { library });
    resumed.appendSigned(made[3]);
    resumed.close();
    await assert.rejects(() => PackageLog.fromJson("{}x", { library }), WeoldrinError);
    await assert.rejects(() => OperatorLog.fromJson(saved, { library }), WeoldrinError);
    assert.equal(used(library), before);
  }
});

test("a log that is forgotten is closed", async () => {
  const library = await Library.load();
  const first = new PackageLog(library);
  for (const it of made) first.appendSigned(it);
  first.close();
  const before = used(library);
  // In a function of its own, which leaves nothing that holds the last one.
  const forget = () => {
    for (let turn = 0; turn < 100; turn++) {
      const log = new PackageLog(library);
      for (const it of made) log.appendSigned(it);
    }
  };
  forget();
  assert.ok(used(library) > before);
  for (let turn = 0; turn < 100 && used(library) !== before; turn++) {
    collect();
    await after(10);
  }
  assert.equal(used(library), before);
});

test("a closed log is not closed once more where it is forgotten", async () => {
  const library = await Library.load();
  for (let turn = 0; turn < 100; turn++) new PackageLog(library).close();
  const kept = new PackageLog(library);
  for (const it of made) kept.appendSigned(it);
  for (let turn = 0; turn < 5; turn++) {
    collect();
    await after(10);
  }
  assert.equal(library.isGivenUp, false);
  assert.equal(kept.length, 4);
});

test("memory grows in the midst of calls", async () => {
  const library = await Library.load();
  const log = new PackageLog(library);
  log.appendSigned(made[0]);
  let grown = 0;
  for (let turn = 1; turn < 60; turn++) {
    const size = library.memory().size;
    const entries = Array.from(
      { length: 20 },
      (_, it) => records.release(`${turn}.${it}.0+${"a".repeat(turn * 20)}`, records.sha256Text(Buffer.from("x"))),
    );
    const envelope = await record(log, bob, entries);
    log.appendSigned(envelope);
    const found = log.record(turn);
    assert.deepEqual(Buffer.from(found.envelope), Buffer.from(envelope));
    assert.equal(found.id, log.head());
    assert.ok(log.latest(`${turn}`).version.startsWith(`${turn}.19.0`));
    assert.ok(log.toJson().length > turn * 1000);
    grown += Number(library.memory().size > size);
  }
  assert.ok(grown > 3, `memory grew ${grown} times`);
  log.close();
});

test("what is passed and given may be larger than all memory before", async () => {
  const library = await Library.load();
  const log = new PackageLog(library);
  log.appendSigned(made[0]);
  const long = "a".repeat(3_000_000);
  assert.equal(log.publicKey(long), null);
  const contents = records.contents(log.head(), START, [records.release("1.0.0", records.sha256Text(Buffer.from("")))]);
  const before = used(library);
  assert.throws(
    () => log.appendSigned(records.envelope(contents, `k${long}`, p256.textOf(new Uint8Array(8)))),
    (error) => {
      const parts = ["the key with ID k", " did not have required permission release"];
      assert.deepEqual([error.name, ...error.sentence.split(long)], ["UnauthorizedAction", ...parts]);
      return true;
    },
  );
  // What was so large is not kept.
  assert.ok(used(library) - before < 5_000_000 && used(library) < 5_000_000, `${used(library)} bytes are in use`);
  log.close();
});

test("what is given stays as it is, however large it was", async () => {
  const library = await Library.load();
  const log = new PackageLog(library);
  log.appendSigned(made[0]);
  const version = `1.0.0+${"a".repeat(1_500_000)}`;
  const envelope = await record(log, bob, [records.release(version, records.sha256Text(Buffer.from("x")))]);
  log.appendSigned(envelope);
  // What was so large is given back to the heap, which writes to it.
  for (let turn = 0; turn < 3; turn++) {
    assert.ok(Buffer.from(log.record(1).envelope).equals(envelope));
    assert.ok(log.latest(">=1").version === version);
  }
  log.close();
});

test("a log that there is no room for leaves nothing behind", async () => {
  const library = await Library.load();
  library.limit(library.memory().size);
  const handle = library.taken(16);
  const giveBack = fill(library);
  library.givenBack(handle);
  const before = used(library);
  for (let turn = 0; turn < 3; turn++) {
    assert.throws(() => new PackageLog(library), OutOfMemory);
    assert.equal(used(library), before);
  }
  giveBack();
  new PackageLog(library).close();
});

test("where growth is refused, each call says so or does without, and the log is as it was", async () => {
  const library = await Library.load();
  const log = new PackageLog(library);
  for (const it of made.slice(0, 3)) log.appendSigned(it);
  const other = new PackageLog(library);
  for (const it of made) other.appendSigned(it);
  const operators = new OperatorLog(library);
  operators.appendSigned((await operatorLog(alice)).record(0).envelope);
  const question = log.ask(made[3]);
  const id = records.keyId(bob.publicKey);
  const root = records.sha256Text(new Uint8Array());
  const proof = Buffer.alloc(64 * 32).toString("base64");
  const checkpoint = { logRoot: root, logLength: 8n, mapRoot: root, timestamp: 9n };
  const signature = await alice.sign(library.checkpointMessage(checkpoint));
  const saved = log.toJson();
  const shown = { checkpoint: { ...checkpoint, logLength: 2 ** 40 }, logId: root, recordId: root, proof };
  const head = { recordId: null, proof: Buffer.alloc(32, 255).toString("base64") };
  const calls = {
    ask: () => log.ask(made[3]),
    "ask what is refused": () => log.ask(made[0]),
    append: () => log.appendAnswered(made[3], question, true),
    append_signed: () => log.appendSigned(made[3]),
    "append_signed what is none": () => log.appendSigned(Buffer.from("0b", "hex")),
    verify: () => library.verify(question.key, question.message, question.signature),
    head: () => log.head(),
    head_of: () => log.last(),
    length: () => log.length,
    record: () => log.record(1),
    id: () => library.recordId("package", made[3]),
    latest: () => log.latest(">=1, <2"),
    release: () => log.release("1.1.0"),
    releases: () => [...log.releases()],
    namespace: () => operators.namespaceState("other"),
    holds: () => log.holds(id, "release"),
    permissions: () => log.permissions(id),
    key: () => log.publicKey(id),
    chain: () => log.chain(id, "release"),
    compare: () => log.compare(other),
    save: () => log.toJson(),
    log_id: () => library.logId("package", "example:math"),
    leaf: () => library.leaf(root, root),
    checkpoint_message: () => library.checkpointMessage(checkpoint),
    verify_checkpoint: () => operators.verifyCheckpoint(checkpoint, records.keyId(alice.publicKey), signature),
    verify_inclusion: () => library.verifyInclusion(root, root, 0, 2 ** 40, root, proof),
    verify_consistency: () => library.verifyConsistency(3, root, 2 ** 40, root, proof),
    compare_checkpoints: () => library.compareCheckpoints(checkpoint, { ...checkpoint, logLength: 2 ** 40 }, proof),
    compare_leaves: () => library.compareLeaves(0, shown, shown),
    compare_heads: () => library.compareHeads(root, root, head, head),
    compare_beginnings: () => library.compareBeginnings(shown.checkpoint, { checkpoint, proof }, { checkpoint, proof }),
    verify_presence: () => library.verifyPresence(root, root, root, Buffer.alloc(32, 255).toString("base64")),
    verify_absence: () => library.verifyAbsence(root, root, Buffer.alloc(32, 255).toString("base64")),
    proof_fault: () => library.verifyAbsence(root, root, "x"),
    version: () => library.version(),
    open: () => new PackageLog(library).close(),
  };
  const state = () => [log.head(), log.length, log.toJson(), other.head(), operators.toJson()];
  // So that what calls are passed has its room.
  log.toJson();
  const refused = [];
  for (const [name, call] of Object.entries(calls)) {
    const before = state();
    library.limit(library.memory().size);
    const giveBack = fill(library);
    try {
      call();
    } catch (error) {
      assert.ok(error instanceof WeoldrinError, `${name}: ${error}`);
      if (error instanceof OutOfMemory) refused.push(name);
    }
    giveBack();
    library.limit(Number.MAX_SAFE_INTEGER);
    if (name.startsWith("append") && log.length === 4) assert.fail(`${name} did without memory`);
    assert.deepEqual(state(), before, name);
  }
  const isNamed = (name) => Object.keys(calls).some((it) => it.split(" ")[0] === name);
  // Checkpoints are read and written by JSON.parse and JSON.stringify, and resuming has a test of its own.
  const others = ["checkpoint_text", "read_checkpoint", "resume", "resume_counted"];
  assert.deepEqual(CALLS.filter((it) => !isNamed(it)), others);
  assert.deepEqual(Object.keys(calls).filter((it) => !refused.includes(it)), WITHOUT_MEMORY);
  // Made again, it does what it does with memory.
  calls.append();
  assert.equal(log.length, 4);
});

test("where growth is refused, no log is resumed by halves", async () => {
  const library = await Library.load();
  const log = new PackageLog(library);
  for (const it of made) log.appendSigned(it);
  const saved = log.toJson();
  for (const count of [undefined, made.length]) {
    // So that what calls are passed has its room.
    (await PackageLog.fromJson(saved, { library, count })).close();
    const before = used(library);
    let refusals = 0;
    for (let room = 16, resumed; !resumed; room *= 2) {
      // So much is left: first for no handle, then for no log, and then for a part of what is resumed.
      const left = library.taken(room);
      library.limit(library.memory().size);
      const giveBack = fill(library);
      library.givenBack(left);
      try {
        resumed = await PackageLog.fromJson(saved, { library, count });
      } catch (error) {
        assert.ok(error instanceof OutOfMemory, String(error));
        refusals++;
      }
      giveBack();
      library.limit(Number.MAX_SAFE_INTEGER);
      if (resumed) assert.equal(resumed.toJson(), saved);
      resumed?.close();
      assert.equal(used(library), before);
    }
    assert.ok(refusals > 4, `${refusals} times refused`);
  }
});

test("a limit bounds what a log may take", async () => {
  const library = await Library.load({ maximum: 4_000_000 });
  const log = new PackageLog(library);
  log.appendSigned(made[0]);
  let refused;
  for (let turn = 1; turn < 1000 && !refused; turn++) {
    const entries = Array.from(
      { length: 50 },
      (_, it) => records.release(`${turn}.${it}.0`, records.sha256Text(Buffer.from("x"))),
    );
    const envelope = await record(log, bob, entries);
    const before = log.head();
    try {
      log.appendSigned(envelope);
    } catch (error) {
      refused = error;
      assert.equal(log.head(), before);
    }
  }
  assert.ok(refused instanceof OutOfMemory, String(refused));
  assert.ok(library.memory().size <= 4_000_000);
  for (const it of [0, -1, 1.5, NaN, "x", 1n]) assert.throws(() => library.limit(it), RangeError);
});

test("where the engine's stack ends, the log is closed, and never half changed", async () => {
  const wanted = await (async () => {
    const log = new PackageLog(await Library.load());
    for (const it of made.slice(0, 3)) log.appendSigned(it);
    return log.toJson();
  })();
  let trapped = 0;
  for (let turn = 0; turn < 10; turn++) {
    const library = await Library.load();
    const [log, other] = [new PackageLog(library), new PackageLog(library)];
    for (const it of made.slice(0, 3)) log.appendSigned(it);
    atTheEnd(() => (turn % 2 ? log.appendSigned(made[3]) : log.toJson()));
    if (library.isGivenUp) {
      trapped++;
      const calls = [
        () => log.head(),
        () => log.appendSigned(made[3]),
        () => other.head(),
        () => library.version(),
        () => new PackageLog(library),
      ];
      for (const call of calls) {
        assert.throws(call, (error) => error instanceof NotOpen && /trapped/.test(error.sentence));
      }
      log.close();
      other.close();
    } else if (log.length === 3) {
      assert.equal(log.toJson(), wanted);
    }
  }
  assert.ok(trapped > 0, "no stack ended in the library");
  // Another library serves from then on.
  const log = await PackageLog.open();
  log.appendSigned(made[0]);
  log.close();
});

test("a trap is told, and the shared library is another one then", async () => {
  const log = await PackageLog.open();
  log.appendSigned(made[0]);
  const { library } = log;
  // What was never given can't be given back: the heap traps.
  assert.throws(
    () => library.givenBack(4096n),
    (error) => {
      const isTold = /^Trapped: the library trapped, and its logs are closed: RuntimeError/.test(String(error));
      return error instanceof Trapped && isTold;
    },
  );
  assert.throws(() => log.head(), NotOpen);
  const next = await PackageLog.open();
  assert.notEqual(next.library, library);
  next.appendSigned(made[0]);
  next.close();
  log.close();
  log.close();
});

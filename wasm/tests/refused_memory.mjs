// refused_memory.mjs PACKAGE MODULE: refuses each request for memory of the proved code in turn, in each call, by the
// module that is linked with refusing.c, on logs that have their records, on resumed ones, and on the trees of a
// registry. The call then says that there was no memory, and all logs and trees are as they were; or it does without,
// and at most gives an error without its text. Made again it does what it does with memory. What only looks at trees
// gives all memory back. PACKAGE is the folder of the package of JavaScript.
import { readFileSync } from "node:fs";
import { argv, exit } from "node:process";
import { pathToFileURL } from "node:url";

const [folder, path] = argv.slice(2);
const weoldrin = await import(pathToFileURL(`${folder}/src/index.js`));
const { Library, OperatorLog, OutOfMemory, PackageLog, RegistryTrees, WeoldrinError, p256, records } = weoldrin;
const module = new WebAssembly.Module(readFileSync(path));
const START = 1_700_000_000_000_000_000n;
const text = (it) => Buffer.from(it);
const root = records.sha256Text(new Uint8Array());
const proof = Buffer.alloc(64 * 32).toString("base64");

// The instance, whose exports the library of the package does not show.
let instance;
const { Instance } = WebAssembly;
WebAssembly.Instance = function (...words) {
  instance = new Instance(...words);
  return instance;
};
const library = new Library(module);
const { refuse, refused } = instance.exports;

const [alice, bob, mallory] = await Promise.all([1, 2, 3].map(() => p256.SigningKey.generate()));
const sign = (signer) => (message) => signer.sign(message);
const record = (log, signer, entries) =>
  records.signed(log.kind, records.contents(log.head(), START, entries), signer.publicKey, sign(signer));

const log = new PackageLog(library);
log.appendSigned(
  await record(log, alice, [records.init(alice.publicKey), records.grant("package", bob.publicKey, "release")]),
);
for (const version of ["1.1.0", "1.2.0"]) log.appendSigned(await record(log, bob, [records.release(version, root)]));
const operators = new OperatorLog(library);
const entries = [
  records.init(alice.publicKey),
  records.defineNamespace("own"),
  records.importNamespace("other", "r.example"),
  records.grant("operator", "toy:YQ==", "commit"),
];
operators.appendSigned(await record(operators, alice, entries));
const other = new PackageLog(library);
for (const it of log.records()) other.appendSigned(it.envelope);
const saved = [log.toJson(), operators.toJson()];
const next = await record(log, bob, [records.release("1.3.0", root)]);
const forged = await records.signed(
  "package",
  records.contents(log.head(), START, [records.release("1.3.0", root)]),
  bob.publicKey,
  sign(mallory),
);
const toy = records.envelope(
  records.contents(null, START, [records.init("toy:YQ==")]),
  records.keyId("toy:YQ=="),
  "toy:YQ==",
);
const checkpoint = { logRoot: root, logLength: 8n, mapRoot: root, timestamp: 9n };
const signature = await alice.sign(library.checkpointMessage(checkpoint));
const first = log.record(0).envelope;
const ids = [alice, bob].map((it) => records.keyId(it.publicKey));
const question = log.ask(next);
// Heads that change, and logs whose ids part early, in the middle and at the last bit.
const logIds = [0, 1, 2].map((it) => records.sha256Text(text(`log ${it}`)));
logIds.push(`${logIds[0].slice(0, -1)}0`, `${logIds[0].slice(0, 40)}${"0".repeat(31)}`);
const leaves = Array.from({ length: 20 }, (_, it) => [logIds[it % 4], records.sha256Text(text(`record ${it}`))]);

/** Trees of the first leaves. */
function treesOf(count) {
  const trees = new RegistryTrees(library);
  for (const leaf of leaves.slice(0, count)) trees.push(...leaf);
  return trees;
}

const kept = treesOf(5);
const shown = { checkpoint: { ...checkpoint, logLength: 2n ** 40n }, logId: root, recordId: root, proof };
const head = { recordId: root, proof: Buffer.alloc(32, 255).toString("base64") };

/** The calls by a log, and whether they append to it. */
const calls = (it) => ({
  warg_open: () => new PackageLog(library).close(),
  "warg_open of operators": () => new OperatorLog(library).close(),
  warg_ask: () => it.ask(next).key,
  "warg_ask of nonsense": () => it.ask(text("\x0b")),
  "warg_ask of what is refused": () => it.ask(first),
  "warg_append by no": () => it.appendAnswered(next, question, false),
  "warg_append of another": () => it.appendAnswered(forged, question, true),
  "warg_append by no question": () => it.appendAnswered(next, { ...question, key: "x" }, true),
  "warg_append_signed of what is forged": () => it.appendSigned(forged),
  "warg_append_signed of nonsense": () => it.appendSigned(text("\x0b")),
  "warg_append_signed by another algorithm": () => new PackageLog(library).appendSigned(toy),
  warg_verify: () => library.verify(question.key, question.message, question.signature),
  "warg_verify of a wrong one": () => library.verify(question.key, question.message, p256.textOf(text("x"))),
  "warg_verify of nonsense": () => library.verify(question.key, question.message, "ecdsa-p256:A"),
  warg_head: () => it.head(),
  warg_length: () => it.length,
  warg_record: () => it.record(1)?.id,
  warg_id: () => library.recordId("package", next),
  "warg_id of operators": () => library.recordId("operator", next),
  warg_latest: () => it.latest(">=1, <2").version,
  "warg_latest by nonsense": () => it.latest(">=x"),
  warg_release: () => it.release("1.2.0").version,
  warg_releases: () => [...it.releases()].length,
  warg_namespace: () => operators.namespaceState("other").importedFrom,
  warg_holds: () => it.holds(ids[0], "yank"),
  warg_permissions: () => it.permissions(ids[0]).join(),
  "warg_permissions of operators": () => operators.permissions(ids[0]).join(),
  warg_key: () => it.publicKey(ids[1]),
  warg_chain: () => JSON.stringify(it.chain(ids[1], "release")),
  warg_compare: () => it.compare(other).relation,
  warg_save: () => it.toJson(),
  "warg_save of operators": () => operators.toJson(),
  warg_log_id: () => library.logId("package", "example:math"),
  "warg_log_id of operators": () => library.logId("operator"),
  "warg_log_id of no name": () => library.logId("package", "math"),
  "warg_log_id of operators of a name": () => library.logId("operator", "a:b"),
  warg_leaf: () => library.leaf(root, root).join(),
  "warg_leaf of nonsense": () => library.leaf(root, "sha256:00"),
  warg_checkpoint_message: () => library.checkpointMessage(checkpoint).join(),
  "warg_checkpoint_message of nonsense": () => library.checkpointMessage({ ...checkpoint, logRoot: "sha256:00" }),
  warg_verify_checkpoint: () => operators.verifyCheckpoint(checkpoint, ids[0], signature),
  "warg_verify_checkpoint of another": () =>
    operators.verifyCheckpoint({ ...checkpoint, logLength: 9n }, ids[0], signature),
  "warg_verify_checkpoint by one who may not": () => operators.verifyCheckpoint(checkpoint, ids[1], signature),
  "warg_verify_checkpoint of nonsense": () => operators.verifyCheckpoint(checkpoint, ids[0], "ecdsa-p256:A"),
  "warg_verify_checkpoint by another algorithm": () =>
    operators.verifyCheckpoint(checkpoint, records.keyId("toy:YQ=="), "toy:YQ=="),
  "warg_verify_checkpoint of no root": () =>
    operators.verifyCheckpoint({ ...checkpoint, mapRoot: "sha256:00" }, ids[0], signature),
  warg_verify_inclusion: () => library.verifyInclusion(root, root, 5, 2 ** 40, root, proof),
  warg_verify_consistency: () => library.verifyConsistency(3, root, 2 ** 40, root, proof),
  warg_verify_presence: () => library.verifyPresence(root, root, root, Buffer.alloc(32, 255).toString("base64")),
  warg_verify_absence: () => library.verifyAbsence(root, root, Buffer.alloc(32, 255).toString("base64")),
  warg_proof_fault: () => library.verifyAbsence(root, root, "x"),
  warg_compare_checkpoints: () => library.compareCheckpoints(checkpoint, { ...checkpoint, logLength: 2n ** 40n }, proof),
  "warg_compare_checkpoints of a fork": () =>
    library.compareCheckpoints(checkpoint, { ...checkpoint, mapRoot: logIds[0] }, proof),
  "warg_compare_checkpoints of nonsense": () => library.compareCheckpoints(checkpoint, checkpoint, "x"),
  warg_compare_leaves: () => library.compareLeaves(5, shown, { ...shown, recordId: logIds[0] }),
  "warg_compare_leaves of nonsense": () => library.compareLeaves(5, shown, { ...shown, proof: "x" }),
  warg_compare_heads: () => library.compareHeads(root, root, head, { ...head, recordId: null }),
  "warg_compare_heads of nonsense": () => library.compareHeads(root, root, head, { ...head, proof: "x" }),
  warg_compare_beginnings: () =>
    library.compareBeginnings(shown.checkpoint, { checkpoint, proof }, { checkpoint, proof }),
  "warg_compare_beginnings of nonsense": () =>
    library.compareBeginnings(shown.checkpoint, { checkpoint, proof }, { checkpoint, proof: "x" }),
  warg_version: () => library.version(),
});
/** The calls by the trees of a registry that change nothing. */
const callsOfTrees = (it) => ({
  warg_registry_open: () => new RegistryTrees(library).close(),
  "warg_registry_push of nonsense": () => it.push(logIds[0], "sha256:00"),
  warg_registry_length: () => it.length,
  warg_registry_roots: () => Object.values(it.roots()).join(),
  warg_registry_inclusion: () => it.inclusion(3),
  "warg_registry_inclusion of none": () => it.inclusion(99),
  warg_registry_consistency: () => it.consistency(3),
  "warg_registry_consistency of none": () => it.consistency(99),
  warg_registry_head: () => Object.values(it.head(logIds[0])).join(),
  "warg_registry_head of an absent log": () => Object.values(it.head(root)).join(),
  "warg_registry_head of nonsense": () => it.head("sha256:00"),
  warg_registry_save: () => it.toBytes().join(),
});
// Of these the log goes on, where memory is given: each begins with a copy.
const changing = (make) => ({
  warg_append: async () => {
    const it = await make();
    return [it, () => it.appendAnswered(next, question, true)];
  },
  warg_append_signed: async () => {
    const it = await make();
    return [it, () => it.appendSigned(next)];
  },
});

/** What a call gives, or the name of what it throws, by a number of the request that is refused. */
function seen(call, number, goesOn) {
  refuse(BigInt(number), BigInt(goesOn));
  let given;
  try {
    given = { given: call() };
  } catch (error) {
    if (!(error instanceof WeoldrinError)) throw error;
    given = { error };
  }
  const count = Number(refused());
  refuse(0n, 0n);
  return { ...given, count };
}

// The same, or the same error without its sentence, or that there was no memory.
function isWell(wanted, found) {
  if (found.error instanceof OutOfMemory) return true;
  if (wanted.error) {
    const isNamed = found.error?.name === wanted.error.name;
    return isNamed && ["", wanted.error.sentence].includes(found.error.sentence);
  }
  return !found.error && found.given === wanted.given;
}

let tried = 0;
const told = new Set();

/** What a log or the trees of a registry are. */
function stateOf(it) {
  if (!(it instanceof RegistryTrees)) return [it.toJson(), it.head()];
  return [it.length, it.roots(), it.inclusion(0), it.head(logIds[0])];
}

// All that there is while calls are tried, as a text.
const states = (it) => JSON.stringify([it, operators, other, kept].map(stateOf));

/** Refuses each request of a call until there is none more. */
async function trial(name, make) {
  let [it, call] = await make();
  const wanted = seen(call, 0, 0);
  for (let number = 1; ; number++) {
    let count = 0;
    for (const goesOn of [0, 1]) {
      [it, call] = await make();
      const [before, { used }] = [states(it), library.memory()];
      const found = seen(call, number, goesOn);
      const isKept = it === kept && library.memory().used !== used;
      if (isKept) throw new Error(`${name} at request ${number}: not all memory is given back`);
      count += found.count;
      if (!isWell(wanted, found)) throw new Error(`${name} at request ${number}: ${found.error ?? found.given}`);
      if (found.error instanceof OutOfMemory) told.add(name.split(" ")[0]);
      if (found.error) {
        if (states(it) !== before) throw new Error(`${name} at request ${number}: what it was is changed`);
        const again = seen(call, 0, 0);
        if (!isWell(wanted, again) || again.error instanceof OutOfMemory) {
          throw new Error(`${name} behind request ${number}: ${again.error}`);
        }
      }
    }
    if (!count) return;
    tried += count;
  }
}

const resumed = await PackageLog.fromJson(saved[0], { library });
for (const it of [log, resumed]) {
  for (const [name, call] of Object.entries(calls(it))) await trial(name, () => [it, call]);
}
const copy = async () => {
  const it = new PackageLog(library);
  for (const { envelope } of log.records()) it.appendSigned(envelope);
  return it;
};
for (const make of [copy, () => PackageLog.fromJson(saved[0], { library })]) {
  for (const [name, begin] of Object.entries(changing(make))) await trial(name, begin);
}
for (const [name, call] of Object.entries(callsOfTrees(kept))) await trial(name, () => [kept, call]);
// Trees of each size go on by a leaf: some need no more memory for it.
for (const [size, leaf] of [...leaves.entries(), [5, [logIds[4], root]]]) {
  await trial("warg_registry_push", () => {
    const it = treesOf(size);
    return [it, () => it.push(...leaf)];
  });
}
// Those that are made of bytes are made by a promise: here the call alone is made, over trees that are open.
for (const size of [0, 1, 5, 20]) {
  const whole = treesOf(size);
  const bytes = whole.toBytes();
  whole.close();
  for (const saved of [bytes, new Uint8Array(63)]) {
    await trial("warg_registry_resume", () => {
      const it = treesOf(3);
      return [it, () => library.isDone("registry_resume", library.status("registry_resume", [it.handle, saved]))];
    });
  }
}
// One that goes on from a text is made by a promise: its requests are those of the call alone.
const texts = [[PackageLog, saved[0]], [OperatorLog, saved[1]], [PackageLog, '{"head":1}']];
for (const [Class, json, count] of [...texts, [PackageLog, saved[0], 4]]) {
  for (let number = 1; ; number++) {
    refuse(BigInt(number), 0n);
    const error = await Class.fromJson(json, { library, count }).then((it) => it.close(), (it) => it);
    const requests = Number(refused());
    refuse(0n, 0n);
    if (error && !(error instanceof OutOfMemory) && json !== '{"head":1}') throw error;
    if (error instanceof OutOfMemory) told.add(count === undefined ? "warg_resume" : "warg_resume_counted");
    if (!requests) break;
    tried += requests;
  }
}
console.log(`${tried} requests refused; ${told.size} calls say so: ${[...told].sort().join(", ")}`);
const ofTrees = ["open", "push", "roots", "inclusion", "consistency", "head", "save", "resume"];
const trees = ofTrees.map((it) => `warg_registry_${it}`);
const compared = ["checkpoints", "leaves"].map((it) => `warg_compare_${it}`);
const fresh = ["warg_log_id", "warg_leaf", "warg_checkpoint_message", "warg_verify_checkpoint", ...compared, ...trees];
const silent = fresh.filter((it) => !told.has(it));
if (silent.length) console.error(`these never say that there is no memory: ${silent.join(", ")}`);
if (told.size < 26) console.error("fewer than 26 calls say that there is no memory");
exit(told.size < 26 || silent.length ? 1 : 0);

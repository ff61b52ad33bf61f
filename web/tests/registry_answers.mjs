// Prints what registry_answers.json has: what registries answer of a package, and the checkpoints that lie of it. The
// keys are new ones, and are not kept.
import { stdout } from "node:process";
import { OperatorLog, PackageLog, RegistryTrees, checkpoints, p256, records } from "../../bindings/js/src/index.js";
import { hexOf } from "../../bindings/js/src/bytes.js";

const TIME = 1_700_000_000;
const [MATH, TEXT, NONE] = ["example:math", "example:text", "example:none"];
const named = ["first", "signer", "defines", "unknown", "math", "text"];
const keys = Object.fromEntries(
  await Promise.all(named.map(async (name) => [name, await p256.SigningKey.generate()])),
);
const version = (text) => records.release(text, records.sha256Text(new TextEncoder().encode(text)));

/** A log of records, each of which has entries, with its envelopes in hex and the ids of its records. */
async function logOf(kind, key, ...entries) {
  const log = await (kind === "operator" ? OperatorLog : PackageLog).open();
  const [envelopes, ids] = [[], []];
  for (const [place, it] of entries.entries()) {
    const contents = records.contents(log.head(), BigInt(TIME + place) * 1_000_000_000n, [it].flat());
    const envelope = await records.signed(kind, contents, key.publicKey, (message) => key.sign(message));
    log.appendSigned(envelope);
    envelopes.push(hexOf(envelope));
    ids.push(log.head());
  }
  return { envelopes, ids };
}

const library = (await PackageLog.open()).library;
const logIds = {
  operator: library.logId("operator"),
  math: library.logId("package", MATH),
  text: library.logId("package", TEXT),
  none: library.logId("package", NONE),
};

async function signedBy(key, checkpoint) {
  const signature = await key.sign(library.checkpointMessage(checkpoint));
  const keyId = records.keyId(key.publicKey);
  return JSON.parse(checkpoints.signedToJson({ checkpoint, keyId, signature }));
}

/** What a registry answers of these logs, of which the last records of `math` come last. */
async function answersOf(logs) {
  const trees = await RegistryTrees.open();
  const leaves = [];
  for (const name of ["operator", "text", "math"]) {
    for (const recordId of logs[name].ids) leaves.push([logIds[name], recordId]);
  }
  for (const leaf of leaves) trees.push(...leaf);
  const checkpoint = trees.checkpoint(TIME);
  return {
    logs: Object.fromEntries(Object.entries(logs).map(([name, it]) => [logIds[name], it.envelopes])),
    leaves,
    checkpoint: await signedBy(keys.signer, checkpoint),
    map: Object.fromEntries(Object.values(logIds).map((it) => [it, trees.head(it)])),
    inclusion: leaves.map((_, place) => trees.inclusion(place)),
    consistency: leaves.map((_, length) => trees.consistency(length)),
    roots: checkpoint,
  };
}

const may = [
  records.grant("operator", keys.signer.publicKey, "commit"),
  records.grant("operator", keys.defines.publicKey, "defineNamespace"),
];
const operator = await logOf("operator", keys.first, records.init(keys.first.publicKey), may);
const others = await logOf("operator", keys.unknown, records.init(keys.unknown.publicKey), may);
const text = await logOf("package", keys.text, records.init(keys.text.publicKey), version("0.1.0"));
const releases = (...versions) =>
  logOf("package", keys.math, records.init(keys.math.publicKey), ...versions.map((it) => version(it)));
const math = await releases("1.0.0", "1.1.0", "2.0.0");
const without = (log) => ({ envelopes: log.envelopes.slice(0, -1), ids: log.ids.slice(0, -1) });
const newest = await answersOf({ operator, text, math });
const { roots } = newest;
const made = {
  logIds,
  heads: { operator: operator.ids.at(-1), math: math.ids.at(-1) },
  keys: Object.fromEntries(Object.entries(keys).map(([name, key]) => [name, records.keyId(key.publicKey)])),
  answers: {
    newest,
    older: await answersOf({ operator, text, math: without(math) }),
    fork: await answersOf({ operator, text, math: await releases("1.0.0", "1.1.0", "6.6.6") }),
    others: await answersOf({ operator: others, text, math }),
  },
  checkpoints: {
    changed: { ...newest.checkpoint, contents: { ...newest.checkpoint.contents, timestamp: TIME + 1 } },
    defines: await signedBy(keys.defines, roots),
    unknown: await signedBy(keys.unknown, roots),
    stale: await signedBy(keys.signer, { ...roots, timestamp: BigInt(TIME - 4000) }),
    ahead: await signedBy(keys.signer, { ...roots, timestamp: BigInt(TIME + 4000) }),
    earlier: await signedBy(keys.signer, { ...roots, timestamp: BigInt(TIME - 1) }),
  },
};
for (const it of Object.values(made.answers)) delete it.roots;
stdout.write(`${JSON.stringify(made, null, 1)}\n`);

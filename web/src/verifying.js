/**
 * Verifies what a registry says of a package, from the name down to a signed checkpoint, as docs/HTTP.md says, in the
 * page's thread. Each step is told once it holds. What decides is the library.
 * @module
 */
import { BadArgument, checkpoints, logOf, records } from "../../bindings/js/src/index.js";
import { Problem, Registry, Told } from "./asking.js";
import { signerOf } from "./checkpoints.js";
import { grow } from "./growing.js";
import { turns, verifierOf } from "./judging.js";

// A checkpoint may be so many seconds old, and ahead of this machine's clock, as for `weoldrin fetch`.
const [OLDEST, AHEAD] = [3600, 600];
// How often the newest checkpoint may change while what stands under it is asked.
const TRIES = 8;

/** What a call gives, or false where a text can't be read: that shows nothing. */
function holds(call) {
  try {
    return call();
  } catch (error) {
    if (error instanceof BadArgument) return false;
    throw error;
  }
}

/** Whether the map of a root is proved to say of a log what is said of it. */
const stands = (library, logId, { recordId, proof }, root) =>
  holds(() =>
    recordId === null
      ? library.verifyAbsence(logId, root, proof)
      : library.verifyPresence(logId, recordId, root, proof),
  );

function checkHead({ library, seen }, logId, head) {
  if (stands(library, logId, head, head.checkpoint.checkpoint.mapRoot)) return;
  if (seen && stands(library, logId, head, seen.published.checkpoint.mapRoot)) {
    throw new Told("old proof", `what is said of ${logId} was so under the checkpoint that this browser saw before`);
  }
  throw new Told("false proof", `what is said of ${logId} does not hold under the checkpoint`);
}

/** Throws where a checkpoint is not signed by a key that the operator log lets sign. */
function checkSigned(operators, { keyId, ...published }) {
  const { state } = signerOf({ isSigned: true, keyId, ...published }, operators);
  if (state === "signed") return;
  if (state !== "no-key" && state !== "may-not") {
    throw new Told("unsigned checkpoint", `the signature of the checkpoint does not belong to the key ${keyId}`);
  }
  const why = state === "no-key" ? "no record of the operator log names" : "has commit no more, or never had it";
  throw new Told("key without commit", `the checkpoint is signed by a key that ${why}: ${keyId}`);
}

/** How a checkpoint compares with an older one. A proof that can't be read shows nothing. */
function compared(library, old, latest, proof) {
  const found = holds(() => library.compareCheckpoints(old, latest, proof));
  if (found !== false) return found;
  const bare = proof ? compared(library, old, latest, "") : "not-shown";
  return bare === "goes-on" ? "not-shown" : bare;
}

const forked = (old, latest) =>
  new Told(
    "forked registry",
    old.logLength === latest.logLength
      ? `two signed checkpoints of ${old.logLength} leaves have other roots`
      : `the log of ${latest.logLength} leaves is not shown to go on from that of ${old.logLength}, which was signed`,
  );

const rolledBack = (old, latest) =>
  new Told("rolled back registry", `it signed ${old.logLength} leaves, and shows ${latest.logLength} now`);

/** Throws where a signed checkpoint does not go on from the one that was seen. */
function checkGoesOn({ library }, old, { checkpoint: latest }, proof) {
  const found = compared(library, old, latest, proof);
  if (found === "goes-back") throw rolledBack(old, latest);
  if (found !== "same" && found !== "goes-on") throw forked(old, latest);
  if (latest.timestamp < old.timestamp) {
    throw new Told("stale checkpoint", "its time is before that of the one that this browser saw before");
  }
}

/** How many seconds old a checkpoint is. Throws where that is too many, or too few. */
function ageOf({ timestamp }) {
  const age = Math.floor(Date.now() / 1000) - Number(timestamp);
  if (age > OLDEST) throw new Told("stale checkpoint", `it is ${age} seconds old`);
  if (age < -AHEAD) throw new Told("checkpoint ahead", `its time is ${-age} seconds ahead of this machine's clock`);
  return age;
}

/** The map's word on the operator log, under the newest checkpoint. */
async function headOfOperators({ registry, seen }, logId) {
  if (!seen) return registry.head(logId);
  const old = seen.published.checkpoint;
  try {
    return await registry.head(logId, { from: old.logLength });
  } catch (error) {
    if (!(error instanceof Problem) || !["NoLeaf", "NoCheckpoint"].includes(error.problem)) throw error;
    const { checkpoint: latest } = await registry.checkpoint();
    throw latest.logLength < old.logLength ? rolledBack(old, latest) : forked(old, latest);
  }
}

/** The id of the key that begins an operator log. */
async function firstKeyOf(log) {
  const none = await logOf(log.kind, log);
  try {
    return records.keyId(none.ask(log.record(0).envelope).key);
  } finally {
    none.close();
  }
}

/** Goes to the newest checkpoint, which the operator log that stands under it has to let its key sign. */
async function follow(it, operators) {
  const { library, seen, tell } = it;
  const logId = library.logId("operator");
  const head = await headOfOperators(it, logId);
  const { checkpoint } = head.checkpoint;
  if (head.recordId === null) {
    throw new Told("unsigned checkpoint", "the registry has no operator log, so no key may sign a checkpoint");
  }
  checkHead(it, logId, head);
  await grow(it, operators, { logId, until: head.recordId, length: Number(checkpoint.logLength) });
  const key = await firstKeyOf(operators);
  if (seen && seen.key !== key) {
    throw new Told("other operator", `the operator log begins with the key ${key}, and this browser saw ${seen.key}`);
  }
  tell({ name: "operators", count: operators.length, key, isSeen: Boolean(seen) });
  checkSigned(operators, head.checkpoint);
  tell({ name: "signed", keyId: head.checkpoint.keyId, length: checkpoint.logLength });
  if (seen) checkGoesOn(it, seen.published.checkpoint, head.checkpoint, head.consistency);
  const before = seen && seen.published.checkpoint.logLength;
  const age = ageOf(checkpoint);
  tell({ name: "fresh", before, age, time: checkpoint.timestamp });
  return { key, published: head.checkpoint };
}

/** Throws where an answer stands under a checkpoint that is not the one that was verified, but for its time. */
function checkSame({ library }, operators, { checkpoint: old }, published) {
  const { checkpoint: latest } = published;
  if (old.logLength !== latest.logLength) {
    throw new Told("bad answer", "the answer is under another checkpoint than was asked for");
  }
  if (compared(library, old, latest, "") === "same") return;
  checkSigned(operators, published);
  throw forked(old, latest);
}

/** Where the leaf of a log's last record stands in the registry's log, which is proved. */
async function placeOf(it, operators, logId, recordId, published) {
  const { logLength, logRoot } = published.checkpoint;
  const place = await it.registry.leaf(logId, recordId);
  if (place === null || place >= Number(logLength)) {
    const why = place === null ? "no leaf is" : `the leaf at place ${place} is said to be`;
    throw new Told("left out leaf", `the map has ${recordId} as the last record of ${logId}, and ${why} of it`);
  }
  const { checkpoint, proof } = await it.registry.inclusion(place, logLength);
  checkSame(it, operators, published, checkpoint);
  if (holds(() => it.library.verifyInclusion(logId, recordId, place, logLength, logRoot, proof))) return place;
  throw new Told("false proof", `that the leaf of ${logId} stands at place ${place} does not hold`);
}

/** All steps under the newest checkpoint. What is there of the package is appended to its log. */
async function walked(it, { logId, operators, log }) {
  const { key, published } = await follow(it, operators);
  const length = published.checkpoint.logLength;
  const head = await it.registry.head(logId, { length });
  checkSame(it, operators, published, head.checkpoint);
  checkHead(it, logId, head);
  const found = { key, checkpoint: checkpoints.signedToJson(published), length, time: published.checkpoint.timestamp };
  if (head.recordId === null) return { ...found, state: "absent" };
  it.tell({ name: "head", recordId: head.recordId });
  const place = await placeOf(it, operators, logId, head.recordId, published);
  it.tell({ name: "leaf", place });
  await grow(it, log, { logId, until: head.recordId, length: Number(length) });
  it.tell({ name: "records", count: log.length });
  return { ...found, state: "verified", count: log.length, head: head.recordId, place };
}

/** The same under a checkpoint that stays the newest one for so long. */
async function tried(it, words) {
  for (let left = TRIES; ; left--) {
    const operators = await logOf("operator", it);
    try {
      return await walked(it, { ...words, operators });
    } catch (error) {
      if (!(error instanceof Problem && error.problem === "NotNewest")) throw error;
      if (!left) throw new Told("no answer", "the newest checkpoint changed each time that it was asked under");
      it.tell({ name: "again" });
    } finally {
      operators.close();
    }
  }
}

/** What this browser saw of the registry before, or nothing where that can't be read. */
function seenOf(seen) {
  try {
    return seen && { key: seen.key, published: checkpoints.parseSigned(seen.checkpoint) };
  } catch {
    return null;
  }
}

/**
 * Verifies a package of the registry at an address: `tell` gets each step that holds. Gives the log, or that there is
 * none, which is proved. Throws `Told` of the first step that does not hold, and `BadArgument` of a name that is none.
 */
export async function verifyPackage({ name, address, seen }, { library, signal, tell }) {
  const logId = library.logId("package", name);
  tell({ name: "name", logId });
  const verify = verifierOf(library, false);
  const turn = turns((count) => tell({ name: "reading", count }));
  const registry = new Registry(address, signal);
  const log = await logOf("package", { library });
  try {
    const found = await tried({ library, registry, verify, turn, tell, seen: seenOf(seen) }, { logId, log });
    if (found.state === "absent") log.close();
    return { found: { ...found, logId }, log };
  } catch (error) {
    log.close();
    throw error;
  }
}

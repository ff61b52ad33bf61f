/**
 * Goes on with a log to the record that a checkpoint's map names, in the page's thread, and says what the log is where
 * it does not get there.
 * @module
 */
import { appendAll } from "../../bindings/js/src/index.js";
import { Told } from "./asking.js";

// So many leaves are gone through to say what a log is that does not get there.
const LEAVES = 50_000;

/** The last leaves that a registry serves, up to a length. */
async function* leavesOf(registry, length) {
  for (let place = Math.max(0, length - LEAVES); place < length; ) {
    const found = await registry.leaves(place);
    if (!found.length) throw new Told("left out leaf", `${length} leaves are signed, and ${place} are served`);
    yield* found.slice(0, length - place);
    place += found.length;
  }
}

/** What a log is that does not have the record, by the leaves. These say it, and prove nothing. */
async function explained({ registry }, log, { logId, until, length }) {
  const ids = Array.from(log.records(), ({ id }) => id);
  const own = [];
  let other = null;
  for await (const leaf of leavesOf(registry, length)) {
    if (leaf.logId === logId) own.push(leaf.recordId);
    else if (leaf.recordId === ids.at(-1)) other = leaf.logId;
  }
  if (other !== null && !own.includes(ids.at(-1))) {
    return new Told("wrong name", `the log that is served for ${logId} is ${other}`);
  }
  if (!ids.length) return new Told("missing record", `no record of ${logId} is served, and the last one is ${until}`);
  if (ids.every((id, place) => id === own[place])) {
    const why = `${ids.length} records of ${logId} are served, and the last one, ${until}, is not`;
    return new Told("rolled back log", why);
  }
  return new Told("replaced record", `the log that is served for ${logId} does not have its last record, ${until}`);
}

/**
 * Appends what is served of a log to one of no records, up to the record `until`: what stands behind that is in no
 * checkpoint yet. Throws what is told where it is not reached.
 */
export async function grow(it, log, wanted) {
  for await (const envelopes of it.registry.pages(wanted.logId)) {
    for (const envelope of envelopes) {
      const { refusal } = await appendAll(log, [envelope], it.verify);
      if (refusal) {
        const why = `record ${log.length} of ${wanted.logId}: ${refusal.name}: ${refusal.sentence}`;
        throw new Told("unlawful record", why);
      }
      if (log.head() === wanted.until) return;
      await it.turn(log.length);
    }
  }
  throw await explained(it, log, wanted);
}

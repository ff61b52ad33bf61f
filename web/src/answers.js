/**
 * What a judged log answers to the page, in a thread: pages of records, keys, the tree of grants, releases, namespaces.
 * Strangers' texts leave as they are: the page makes them printable.
 * @module
 */
import { pause } from "./judging.js";
import { recordOf } from "./reading.js";

// So many entries of one record are told, and the picture of the records over time has so many columns.
const [ENTRIES, COLUMNS] = [24, 72];
const PERMISSIONS = {
  package: ["release", "yank"],
  operator: ["commit", "defineNamespace", "importNamespace"],
};

/** What a record says, cut where it has very many entries. */
export function told(kind, envelope, id, place) {
  let said;
  try {
    said = recordOf(kind, envelope);
  } catch {
    return { place, id, isRead: false, size: envelope.length };
  }
  const { entries, ...others } = said;
  return { place, id, isRead: true, ...others, entries: entries.slice(0, ENTRIES), count: entries.length };
}

/** The records of a log from a place on, at most so many. */
export function recordsOf(log, from, count) {
  const found = [];
  for (let place = from; place < from + count; place++) {
    const record = log.record(place);
    if (record === null) break;
    found.push(told(log.kind, record.envelope, record.id, place));
  }
  return found;
}

/** The ids of keys that a record names. */
const idsOf = ({ signer, entries }) => [signer, ...entries.flatMap(({ id }) => (id === undefined ? [] : [id]))];

/** How many records there are in each column of time, from the first to the last. */
function columnsOf(times) {
  const [first, last] = [times[0], times.at(-1)];
  const columns = new Array(COLUMNS).fill(0);
  const span = last - first + 1n;
  for (const time of times) columns[Number(((time - first) * BigInt(COLUMNS)) / span)]++;
  return columns;
}

/** What takes a walk over all records: when they were, who signed, which keys and which namespaces they name. */
export async function summaryOf(log) {
  const [ids, signers, names, times] = [new Set(), new Map(), new Set(), []];
  let last = performance.now();
  for (let place = 0, record; (record = log.record(place)) !== null; place++) {
    const said = recordOf(log.kind, record.envelope);
    for (const id of idsOf(said)) ids.add(id);
    for (const { name } of said.entries) if (name !== undefined) names.add(name);
    signers.set(said.signer, (signers.get(said.signer) ?? 0) + 1);
    times.push(said.time);
    if (performance.now() - last > 40) {
      await pause();
      last = performance.now();
    }
  }
  return { ids: [...ids], names: [...names], signers, times, columns: times.length ? columnsOf(times) : [] };
}

/** The keys of these ids: their texts, what they hold, and how many records each signed. */
export function keysOf(log, { ids, signers }, from, count) {
  return ids.slice(from, from + count).map((id) => ({
    id,
    key: log.publicKey(id),
    permissions: log.permissions(id) ?? [],
    signed: signers.get(id) ?? 0,
  }));
}

/** Who gave, and to whom, by the entry of a link, and whether that one holds the permission at the end. */
function grantAt(log, { record, entry }, permission) {
  const { signer, time, entries } = recordOf(log.kind, log.record(record).envelope);
  const { id, what } = entries[entry];
  return { record, entry, by: signer, to: id, time, isInit: what === "init", holds: log.holds(id, permission) };
}

/** The rows of a tree, its branches in the order of their links, each with how deep it stands. */
function rowsOf(branch) {
  const found = [];
  const stack = [...branch.values()].reverse().map((it) => [it, 0]);
  while (stack.length) {
    const [node, level] = stack.pop();
    found.push({ ...node.grant, level });
    for (const below of [...node.below.values()].reverse()) stack.push([below, level + 1]);
  }
  return found;
}

/**
 * The tree of the grants by which keys hold a permission: the library's chain of each of so many holders, laid one over
 * the other.
 */
export async function treeOf(log, { ids }, permission, most) {
  const holders = ids.filter((id) => log.holds(id, permission));
  const roots = new Map();
  let last = performance.now();
  for (const id of holders.slice(0, most)) {
    let branch = roots;
    for (const link of log.chain(id, permission)) {
      const name = `${link.record} ${link.entry}`;
      if (!branch.has(name)) branch.set(name, { grant: grantAt(log, link, permission), below: new Map() });
      branch = branch.get(name).below;
    }
    if (performance.now() - last > 40) {
      await pause();
      last = performance.now();
    }
  }
  return { rows: rowsOf(roots), holders: holders.length, shown: Math.min(most, holders.length) };
}

/** The permissions that logs of a kind have. */
export const permissionsOf = (kind) => PERMISSIONS[kind];

/** The namespaces of an operator log, of these names. */
export const namespacesOf = (log, { names }, from, count) =>
  names.slice(from, from + count).map((name) => ({ name, state: log.namespaceState(name) }));

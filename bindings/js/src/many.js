/**
 * Audits many logs side by side, by threads.
 * @module
 */
import { Refusal, Verdict, nameOf } from "./auditing.js";
import { moduleOf } from "./engine.js";
import { Unreadable, faultOf } from "./faults.js";
import { begun, processors } from "./threads.js";
import { kindOf } from "./values.js";

const VERIFIERS = ["library", "web-crypto"];

function verdictOf({ path, records, head, refusal, fault }) {
  const refused = refusal && new Refusal(refusal.place, refusal.name, refusal.sentence);
  return new Verdict({ path, records, head, refusal: refused, fault: fault && faultOf(fault) });
}

/**
 * Audits what is left, one after the other, by one thread, and by another one where it ends. A thread is told the job
 * with its first file.
 */
async function drained(left, job, found) {
  let thread, at, next;
  const told = (verdict) => {
    found[at.place] = verdict;
    next();
  };
  const heard = ({ verdict, error }) =>
    told(verdict ? verdictOf(verdict) : new Verdict({ path: nameOf(at.file), fault: new Unreadable(error.message) }));
  const ended = (why) => {
    if (thread === undefined) return;
    thread = undefined;
    const fault = new Unreadable(`the thread that judged it ended: ${why}`);
    if (at) told(new Verdict({ path: nameOf(at.file), fault }));
  };
  const end = () => {
    const last = thread;
    thread = undefined;
    last?.end();
  };
  while ((at = left.shift()) !== undefined) {
    const isNew = thread === undefined;
    thread ??= await begun(heard, ended);
    const judged = new Promise((resolve) => (next = resolve));
    try {
      thread.tell(isNew ? { ...job, ...at } : at);
    } catch (error) {
      // It is nothing that goes to another thread. A new one was told no job, and is not used.
      if (isNew) end();
      told(new Verdict({ path: nameOf(at.file), fault: new Unreadable(error.message) }));
    }
    await judged;
  }
  end();
}

/**
 * Audits the logs in many files side by side, and gives their verdicts in the order of the files. What is wrong with
 * one of them is in its own verdict.
 *
 * By threads, so many as `workers`, of which each has a library of its own, which may have `maximum` bytes of memory. A
 * function does not go to another thread, so `verifier` is a word: "library", or "web-crypto".
 *
 * Thrown are `RangeError` where the kind or the verifier is none, and `NoLibrary`.
 */
export async function auditMany(files, kind, options = {}) {
  const { workers = processors(), verifier = "library", allowEmpty = false, source, maximum } = options;
  if (!VERIFIERS.includes(verifier)) throw new RangeError(`a verifier is ${VERIFIERS.join(" or ")}`);
  const left = Array.from(files, (it, place) => {
    return it instanceof URL ? { place, file: it.href, isAddress: true } : { place, file: it, isAddress: false };
  });
  const job = { kind: kindOf(kind), allowEmpty, verifier, maximum, module: await moduleOf(source) };
  const found = [];
  const count = Math.max(1, Math.min(workers, left.length));
  await Promise.all(Array.from({ length: count }, () => drained(left, job, found)));
  return found;
}

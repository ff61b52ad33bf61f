/**
 * What the command answers of a log: the first line, what else is printed and told, and the status.
 * @module
 */
import { NoEnvelope, OutOfMemory, Refused, Trapped } from "./errors.js";
import { BadLine } from "./faults.js";
import { Unread, bytesOfPath, sentenceOf } from "./inputs.js";
import { envelopesOf } from "./lines.js";
import { OperatorLog, PackageLog, classOf } from "./logs.js";
import { appendBy, begins, isSigned, isToy, questionOf, schemeOf } from "./schemes.js";
import { Kind, Relation } from "./values.js";

const MARKED = "the file begins with a byte order mark";

/** An answer: its first line as a text and as members of JSON, and what more there is. */
const answer = (text, members, status, { told = [], more = [] } = {}) => ({ text, members, status, told, more });

/** The members of a line that has none of its own. */
const sentence = (text) => ({ message: text });

function causeOf(log, { toy }, place, envelope) {
  if (!envelope.length) return "the line is blank: only the last line of a file may be";
  const question = questionOf(log, envelope);
  if (question && isToy(question) && !toy) return 'the key\'s scheme is "toy", which is taken with --toy alone';
  if (question && !["toy", "ecdsa-p256"].includes(schemeOf(question))) {
    return "the key's scheme is none that is known here; weoldrin claims lists what to verify";
  }
  if (place > 0 || (question && isSigned(log.library, question))) return "";
  const kinds = [
    [PackageLog, "it is a record of a package log: is the kind right?"],
    [OperatorLog, "it is a record of an operator log: is the kind right?"],
  ];
  for (const [Class, cause] of kinds) {
    const other = new Class(log.library);
    try {
      if (begins(other, envelope)) return cause;
    } finally {
      other.close();
    }
  }
  return "";
}

function refusedAt(log, asked, path, place, envelope, error) {
  const told = [sentenceOf(path, `record ${place}: ${error.sentence}`)];
  const cause = causeOf(log, asked, place, envelope);
  if (cause) told.push(sentenceOf(path, cause));
  const members = { verdict: "refused", record: place, offence: error.name };
  return answer(`refused ${place} ${error.name}`, members, 1, { told });
}

function badLine(path, error) {
  const told = [sentenceOf(path, "not a line of hex digits, two for each byte", error.number)];
  if (error.cause) told.push(sentenceOf(path, error.cause === MARKED ? `${MARKED}: save it without one` : error.cause));
  return answer(`bad line ${error.line}`, { verdict: "bad line", line: error.line }, 2, { told });
}

/** The log of the lines of a file, or what is answered of it where it is none that is lawful. */
function logOfLines(library, asked, path, bytes) {
  let envelopes;
  try {
    envelopes = envelopesOf(bytes);
  } catch (error) {
    if (error instanceof BadLine) return { stopped: badLine(path, error) };
    throw error;
  }
  if (!envelopes.length && !asked.allowEmpty) return { stopped: answer("empty", { verdict: "empty" }, 1) };
  const log = new (classOf(asked.kind))(library);
  for (const [place, envelope] of envelopes.entries()) {
    try {
      appendBy(log, envelope, asked);
    } catch (error) {
      if (!(error instanceof Refused) && !(error instanceof NoEnvelope)) throw error;
      const stopped = refusedAt(log, asked, path, place, envelope, error);
      log.close();
      return { stopped };
    }
  }
  return { log, count: envelopes.length };
}

function releasesOf(log) {
  if (log.kind !== Kind.PACKAGE) return [];
  return Array.from(log.releases(), ({ version, yanked, content }) => ({
    text: `${version} ${yanked ? "yanked" : `released ${content}`}`,
    members: { release: version, state: yanked ? "yanked" : "released", ...(yanked ? {} : { content }) },
  }));
}

/** The answer of the older copy, which is none that is lawful. */
const ofOlder = (stopped) => {
  // What the tool has no members for is a sentence.
  const members = stopped.members.verdict === "bad line" ? sentence(`older: ${stopped.text}`) : null;
  return { ...stopped, text: `older: ${stopped.text}`, members: members ?? { side: "older", ...stopped.members } };
};

/** What is not met of what is demanded of a lawful log, or nothing. */
function unmet(library, asked, { log, count }, older) {
  const head = log.head();
  const { expectHead, atLeast } = asked;
  if (expectHead !== undefined && !head?.startsWith(expectHead.toLowerCase())) {
    return answer(`other head ${head ?? "none"}`, { verdict: "other head", head }, 1);
  }
  if (atLeast !== undefined && BigInt(count) < atLeast) {
    return answer(`too short ${count}`, { verdict: "too short", records: count }, 1);
  }
  if (older === undefined) return null;
  const side = logOfLines(library, asked, asked.goesOnFrom, older);
  if (side.stopped) return ofOlder(side.stopped);
  try {
    const { relation, left, right } = side.log.compare(log);
    if (relation === Relation.FORK) {
      const [old, fresh] = [side.log.record(left).id, log.record(right).id];
      return answer(`fork ${left} ${old} ${fresh}`, { verdict: "fork", record: left, old, new: fresh }, 1);
    }
    if (relation === Relation.COLLISION) {
      const text = `collision ${left} ${right} ${log.record(right).id}`;
      return answer(text, sentence(text), 1);
    }
    const text = `rolled back ${count} ${head ?? "none"}`;
    return relation === Relation.RIGHT_IS_PREFIX ? answer(text, sentence(text), 1) : null;
  } finally {
    side.log.close();
  }
}

function judged(library, asked, path, bytes, older) {
  const found = logOfLines(library, asked, path, bytes);
  if (found.stopped) return found.stopped;
  try {
    const lacking = unmet(library, asked, found, older);
    if (lacking) return lacking;
    const head = found.log.head();
    const members = { verdict: "ok", records: found.count, head };
    return answer(`ok ${found.count} ${head ?? "none"}`, members, 0, { more: releasesOf(found.log) });
  } finally {
    found.log.close();
  }
}

const unread = (text, status) => ({ ...answer(text, sentence(text), status), isUnread: true });

/**
 * What is answered of the log of a path, by a library, to what is asked. Throws `Unread` where the older copy can't be
 * read, which is a fault of none of the lines.
 */
export function answerOf(library, asked, path) {
  let older;
  if (asked.goesOnFrom !== undefined) {
    try {
      older = bytesOfPath(asked.goesOnFrom, asked.limit);
    } catch (error) {
      throw Object.assign(error, { path: asked.goesOnFrom });
    }
  }
  try {
    return judged(library, asked, path, bytesOfPath(path, asked.limit), older);
  } catch (error) {
    if (error instanceof OutOfMemory) return unread("out of memory", 3);
    if (error instanceof Trapped) return unread(error.message, 3);
    if (error instanceof Unread) return unread(error.message, error.status);
    throw error;
  }
}

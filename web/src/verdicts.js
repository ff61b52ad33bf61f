/**
 * The list of the logs that were checked, each with its verdict. A verdict stands there once the whole file was judged,
 * and not before.
 * @module
 */
import { at, button, el, fill, keyText, many, number, quoted, said, timeText } from "./dom.js";
import { entriesOf } from "./entries.js";
import { faultText, kindText, meaningOf } from "./sentences.js";
import { checkpointBody, checkpointSentence, lookOfCheckpoint } from "./signers.js";

const WORDS = {
  good: "Lawful",
  bad: "Refused",
  warn: "Lawful, by toy signatures",
  fault: "Not checked",
  busy: "Checking",
};
const WORDS_OF_CHECKPOINTS = { ...WORDS, good: "Signed", bad: "Not signed", warn: "Signer not known" };

/** Whether what was dropped is a checkpoint, and no log. */
const isCheckpoint = ({ found }) => found?.kind === "checkpoint";

/** The look of a log's verdict. */
export function lookOf(log) {
  const { found, fault } = log;
  if (fault) return "fault";
  if (!found) return "busy";
  if (isCheckpoint(log)) return lookOfCheckpoint(log);
  if (found.refusal) return "bad";
  return found.toys ? "warn" : "good";
}

/** A log's verdict as one sentence, which is read out. */
export function sentenceOf(log) {
  const { name, found, fault } = log;
  if (fault) return `${quoted(name)}: not checked. ${faultText(fault)}`;
  if (isCheckpoint(log)) return checkpointSentence(log);
  if (found.refusal) {
    const [meaning] = meaningOf(found.refusal, found.kind);
    return `${quoted(name)}: refused at record ${number(found.refusal.place)}. ${meaning}`;
  }
  const toys = found.toys ? ", by signatures of the toy scheme, which anyone can forge" : "";
  const what = `the log of ${kindText(found.kind)}, with ${many(found.taken, "record")}`;
  return `${quoted(name)}: lawful${toys}. It is ${what}.`;
}

function refusalOf({ refusal, kind }) {
  const [meaning, advice] = meaningOf(refusal, kind);
  const { record } = refusal;
  return [
    el("p", { class: "why" }, meaning),
    advice && el("p", {}, el("strong", {}, "What can be done: "), advice),
    el(
      "details",
      {},
      el("summary", {}, "What the library says, and the record"),
      el(
        "dl",
        {},
        el("dt", {}, "Record"),
        el("dd", {}, `${number(refusal.place)}, counted from 0, on line ${number(refusal.line)} of the file`),
        el("dt", {}, "Name"),
        el("dd", {}, el("code", {}, quoted(refusal.name))),
        el("dt", {}, "Sentence"),
        el("dd", {}, said(refusal.sentence)),
        record.isRead && record.signer ? [el("dt", {}, "Signer"), el("dd", {}, keyText(record.signer))] : null,
        record.isRead ? [el("dt", {}, "Time"), el("dd", {}, timeText(record.time))] : null,
        record.isRead ? [el("dt", {}, "It says"), el("dd", {}, entriesOf(record))] : null,
      ),
    ),
  ];
}

function lawfulOf(found) {
  return [
    el(
      "p",
      { class: "why" },
      `Each of its ${many(found.taken, "record")} follows the rules, and each signature belongs` +
        (found.toys ? ", but anyone can forge signatures of the toy scheme: this says nothing of who signed." : "."),
    ),
    found.head && el("p", {}, "Its last record is ", el("code", {}, quoted(found.head)), "."),
  ];
}

const progressOf = (log) =>
  el(
    "p",
    {},
    el("progress", { max: log.total || 1, value: log.done || 0, "aria-label": `Checking ${quoted(log.name, 60)}` }),
    log.total ? ` ${number(log.done)} of ${many(log.total, "record")}` : " reading",
  );

function bodyOf(log) {
  const look = lookOf(log);
  if (look === "busy") return progressOf(log);
  if (look === "fault") return el("p", { class: "why" }, faultText(log.fault));
  if (isCheckpoint(log)) return checkpointBody(log);
  const { found } = log;
  const before = found.refusal?.place ?? 0;
  return [
    el("p", { class: "kind" }, `The log of ${kindText(found.kind)}.`),
    found.refusal ? refusalOf(found) : lawfulOf(found),
    before > 0 && el("p", {}, `${many(before, "record")} before it can be looked at, but the file is refused.`),
  ];
}

/** A log and its verdict, with what can be done about it. */
export function cardOf(log, { isShown, show, forget, again, prove }) {
  const look = lookOf(log);
  const { found } = log;
  const words = isCheckpoint(log) ? WORDS_OF_CHECKPOINTS : WORDS;
  const title = el("h3", { id: `log-${log.number}` }, said(log.name, { class: "said name" }));
  const named = (text) => ({ "aria-label": `${text} ${quoted(log.name, 60)}` });
  const isToy = found?.refusal?.name === "UnknownAlgorithm" && found.refusal.scheme === "toy";
  const isOther = found?.refusal?.cause === "kind";
  const other = found && (found.kind === "package" ? "operator" : "package");
  return el(
    "li",
    { class: `card ${look}`, "data-look": look, "data-number": log.number },
    el("div", { class: "row head" }, title, el("strong", { class: "verdict" }, words[look])),
    bodyOf(log),
    el(
      "p",
      { class: "row" },
      found?.taken ? button("Show", show, { ...named("Show"), "aria-pressed": String(isShown) }) : null,
      isCheckpoint(log) ? button("Check a proof on it", prove, named("Check a proof on")) : null,
      isToy ? button("Check again with toy signatures", () => again({ toy: true })) : null,
      isOther ? button(`Check again as the log of ${kindText(other)}`, () => again({ kind: other })) : null,
      look === "busy" ? null : button("Remove", forget, named("Remove")),
    ),
  );
}

/** Shows what a log's progress is, without building anything anew. */
export function tellProgress(log) {
  const bar = at(`log-${log.number}`)?.closest("li")?.querySelector("progress");
  if (bar) fill(bar.parentElement, ...progressOf(log).childNodes);
}

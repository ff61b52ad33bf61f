/**
 * A checkpoint, and what a registry proves of its log and its map. What decides is the library.
 * @module
 */
import { at, button, el, fill, idText, quoted } from "./dom.js";
import { faultText } from "./sentences.js";
import { checkpointFacts, signerKey, signerText } from "./signers.js";

const WHAT = {
  inclusion: "that a record stands at a place of the registry's log",
  consistency: "that the registry's log goes on from an older checkpoint",
  head: "that a record is the last one of a log",
  absence: "that the registry has nothing of a log",
  none: "nothing: look at the checkpoint alone",
};
const WANTED = {
  inclusion: ["name", "record", "place", "proof"],
  consistency: ["old", "proof"],
  head: ["name", "record", "proof"],
  absence: ["name", "proof"],
  none: [],
};
const HOLDS = {
  inclusion: "The proof holds: the record stands at that place of the registry's log.",
  consistency: "The proof holds: the registry's log goes on from the older checkpoint.",
  head: "The proof holds: the record is the last one that the registry's map has of the log.",
  absence: "The proof holds: the registry's map has nothing of the log.",
};
const FAULTS = {
  NotJson: "The checkpoint is no JSON.",
  Missing: "The checkpoint lacks a member: it has logRoot, logLength and mapRoot.",
  WrongType: "A member of the checkpoint is of another type than it should be.",
  BadName: "No log has that name. A package's is two words with a colon between them, such as example:math.",
  BadText: "A root or an id is no hash: those are sha256: and 64 digits.",
  BadBase64: "The proof is no base64.",
  TooLong: "The proof is longer than any can be.",
  BadLength: "The proof has not as many bytes as it should: a part of it may be missing.",
  EmptySibling: "The proof has a hash in it that it has to leave out.",
};

const TYPED = { spellcheck: "false", autocomplete: "off" };

const area = (id, label, rows, help) => [
  el("label", { for: id }, label),
  help && el("p", { class: "small", id: `${id}-help` }, help),
  el("textarea", { id, rows, ...TYPED, "aria-describedby": help ? `${id}-help` : null }),
];

const line = (id, label, extra, attributes = {}) => [
  el("label", { for: id }, label),
  el("div", { class: "row" }, el("input", { type: "text", id, ...TYPED, ...attributes }), extra),
];

const LOG_NAME = "The log: a package's name, “operator”, or a log's id";

/** The fields of the form, each group with the word by which a proof wants it. */
function fields(fillRecord) {
  const group = (word, ...children) => el("div", { "data-wanted": word }, children);
  return [
    area("checkpoint", "Checkpoint, as JSON", 4, "As a registry publishes it: with its signature or without."),
    el("label", { for: "what" }, "What is proved"),
    el("select", { id: "what" }, Object.entries(WHAT).map(([value, text]) => el("option", { value }, text))),
    group("old", area("old-checkpoint", "The older checkpoint, as JSON", 4)),
    group("name", line("log-name", LOG_NAME, null, { placeholder: "example:math" })),
    group("record", line("record-id", "The record's id", button("Last record of the log that is shown", fillRecord))),
    group("place", line("leaf", "Its place in the registry's log, from 0", null, { inputmode: "numeric" })),
    group("proof", area("proof", "The proof, in base64", 3)),
    el("p", {}, el("button", { type: "submit" }, "Check")),
  ];
}

const valueOf = (id) => at(id).value.trim();

/** What is asked of the thread by the form's fields. */
function asked(what, operators) {
  const name = valueOf("log-name");
  const isId = /^sha256:[0-9a-fA-F]{64}$/.test(name);
  return {
    what,
    operators,
    text: valueOf("checkpoint"),
    oldText: valueOf("old-checkpoint"),
    logId: isId ? name : null,
    name: name === "operator" ? null : name,
    recordId: valueOf("record-id"),
    place: valueOf("leaf"),
    proof: valueOf("proof"),
  };
}

/** What is missing in the form, in a sentence, or an empty text. */
function missing({ what, text, oldText, name, logId, recordId, place, proof }) {
  const wants = (word) => WANTED[what].includes(word);
  if (!text) return "Paste a checkpoint first.";
  if (wants("old") && !oldText) return "Paste the older checkpoint too.";
  if (wants("name") && name === "" && !logId) return "Say which log the proof is of.";
  if (wants("record") && !recordId) return "Say which record the proof is of.";
  if (wants("place") && !/^[0-9]{1,20}$/.test(place)) return "Say at which place it stands, in digits.";
  // A proof of consistency of equal lengths is empty, and so is that of the only leaf.
  return proof || ["inclusion", "consistency", "none"].includes(what) ? "" : "Paste the proof.";
}

function shownProof({ what }, { holds, checkpoint, signer, logId }) {
  const verdict = holds === null ? null : holds ? ["good", HOLDS[what]] : ["bad", "The proof does not hold."];
  const [look, text] = signerText(signer, "the operator log that is shown");
  const ofLog = logId && [el("dt", {}, "Id of the log"), el("dd", {}, idText(logId))];
  return [
    verdict && el("p", { class: `box ${verdict[0]}`, "data-holds": String(holds) }, verdict[1]),
    el("p", { class: `box ${look}`, "data-signer": signer.state }, text),
    el("dl", {}, signerKey(signer), ofLog, checkpointFacts(checkpoint)),
  ];
}

/** Takes the text of a checkpoint into the form, and leads there. */
export function proveOn(text) {
  at("checkpoint").value = text.trim();
  at("proofs").scrollIntoView();
  at("what").focus();
}

/** The part of the page that checks proofs; `shown` gives the log that is shown, or nothing. */
export function proofs(thread, shown) {
  const [form, box] = [at("proof-form"), at("proof-said")];
  fill(form, ...fields(() => (at("record-id").value = shown()?.found.head ?? "")));
  const what = at("what");
  const choose = () => {
    const wanted = WANTED[what.value];
    for (const it of form.querySelectorAll("[data-wanted]")) it.hidden = !wanted.includes(it.dataset.wanted);
    fill(box);
  };
  what.addEventListener("change", choose);
  choose();
  form.addEventListener("submit", async (event) => {
    event.preventDefault();
    const log = shown();
    const words = asked(what.value, log?.found.kind === "operator" ? log.number : null);
    const lacking = missing(words);
    if (lacking) return fill(box, lacking);
    try {
      fill(box, ...shownProof(words, await thread.ask("prove", words)));
    } catch (error) {
      const { name, sentence } = error.told ?? { name: "Broken", sentence: error.message };
      const text = FAULTS[name] ?? (sentence ? `It can't be checked: ${quoted(sentence)}.` : faultText({ name }));
      fill(box, el("span", { class: "box warn" }, text));
    }
  });
}

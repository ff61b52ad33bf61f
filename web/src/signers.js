/**
 * Who signed a checkpoint, as the page shows it: by an operator log, or why by no one who may.
 * @module
 */
import { el, idText, keyText, many, number, quoted, said, timeText } from "./dom.js";
import { permissionsText } from "./entries.js";
import { faultText } from "./sentences.js";

const OTHERS = "so what stands in it says nothing of who may sign.";
const SIGNERS = {
  signed: (log) => ["good", `It is signed by a key that may sign checkpoints by ${log}.`],
  "no-key": (log) => ["bad", `It is signed by no one who may: ${log} has no key of the id that stands with it.`],
  "may-not": (log, { permissions }) => [
    "bad",
    `It is signed by no one who may: by ${log} the key that stands with it holds ${permissionsText(permissions)}, ` +
      "and not commit, which lets keys sign checkpoints.",
  ],
  "not-belonging": (log) => [
    "bad",
    `The signature does not belong to this checkpoint under the key that stands with it, which may sign by ${log}: ` +
      "one of them was changed, or something else was signed.",
  ],
  unreadable: () => ["bad", "The signature, or the id of the key, that stands with it can't be read."],
  algorithm: (log) => [
    "warn",
    `The key that stands with it may sign by ${log}, but is of another algorithm than ecdsa-p256, which is the one ` +
      "that is verified here.",
  ],
  "no-log": () => ["warn", "It is signed. Check the registry's operator log too, to see whether by one who may."],
  unsigned: () => ["warn", "No signature stands with it."],
  toys: (log) => ["warn", `The signatures of ${log} are of the toy scheme, which anyone can forge, ${OTHERS}`],
  refused: (log) => ["warn", `The file of ${log} is refused, ${OTHERS}`],
  broken: (log, { fault }) => ["warn", `It could not be asked of ${log}. ${faultText(fault)}`],
};

/** How it looks, and a sentence, by what the thread told and how the log is called. */
export const signerText = (signer, log) => SIGNERS[signer.state](log, signer);

/** The key that stands with a checkpoint. */
export function signerKey({ keyId, key }) {
  if (keyId === undefined) return [];
  const text = key && el("div", { class: "small" }, said(key));
  return [el("dt", {}, "The key that stands with it"), el("dd", {}, keyText(keyId), text)];
}

const logText = ({ name }) => `the operator log ${quoted(name, 80)}`;
const lookAndText = ({ by, ...signer }) => signerText(signer, by && logText(by));

/** What is said of who signed: a sentence for each operator log that is there. */
function saidOf({ found, signers = [] }) {
  if (!found.isSigned) return [{ state: "unsigned" }];
  const those = signers.filter(({ by }) => by.found);
  return those.length ? those : [{ state: "no-log" }];
}

/** The look of a checkpoint: good where each operator log that is there lets the key sign, and it did. */
export function lookOfCheckpoint(log) {
  const looks = saidOf(log).map((it) => lookAndText(it)[0]);
  return looks.includes("bad") ? "bad" : looks.includes("warn") ? "warn" : "good";
}

/** What is said of a checkpoint, as one sentence or some. */
export function checkpointSentence(log) {
  const texts = saidOf(log).map((it) => lookAndText(it)[1]);
  const size = many(log.found.checkpoint.logLength, "leaf", "leaves");
  return [`${quoted(log.name)}: a checkpoint of ${size}.`, ...texts].join(" ");
}

/** What a checkpoint says, as entries of a list of what is what. */
export const checkpointFacts = ({ logLength, logRoot, mapRoot, timestamp }) => [
  el("dt", {}, "Leaves of the registry's log"),
  el("dd", {}, number(logLength)),
  el("dt", {}, "Root of the log"),
  el("dd", {}, idText(logRoot)),
  el("dt", {}, "Root of the map"),
  el("dd", {}, idText(mapRoot)),
  timestamp !== undefined && [el("dt", {}, "Time"), el("dd", {}, timeText(timestamp * 1_000_000_000n))],
];

/** What the card of a checkpoint has. */
export function checkpointBody(log) {
  const { checkpoint, keyId } = log.found;
  const told = saidOf(log);
  const { key } = told.find((it) => it.key) ?? {};
  return [
    el("p", { class: "kind" }, "A checkpoint of a registry."),
    told.map((it) => el("p", { class: "why", "data-signer": it.state }, lookAndText(it)[1])),
    el("dl", {}, signerKey({ keyId, key }), checkpointFacts(checkpoint)),
  ];
}

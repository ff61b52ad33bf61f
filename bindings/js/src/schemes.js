/**
 * By what the command takes signatures: by the library, by the toy scheme where it is asked for, or by a list of those
 * that another program verified.
 * @module
 */
import { base64Of, bytesOfBase64, bytesOfHex, hexOf, joined } from "./bytes.js";
import { NoEnvelope, Refused, UnknownAlgorithm } from "./errors.js";
import { sha256 } from "./sha256.js";

/** What a word of a key or of a signature says wrong, or nothing. */
function faultOfText(text) {
  const at = text.indexOf(":");
  if (at < 0) return "MissingColon";
  if (at === 0) return "EmptyAlgorithm";
  return bytesOfBase64(text.slice(at + 1)) === null ? "BadBase64" : "";
}

/** The text that a printed word stands for, or null where it stands for none. */
function unprinted(word) {
  let isWell = true;
  const text = word.replace(/\\(\\|u\{([0-9a-fA-F]{1,6})\})?/g, (_, what, digits) => {
    if (what === "\\") return "\\";
    const number = digits ? Number.parseInt(digits, 16) : 0x110000;
    isWell &&= number < 0xd800 || (number > 0xdfff && number < 0x110000);
    return isWell ? String.fromCodePoint(number) : "";
  });
  return isWell ? text : null;
}

/** A line of a list of claims, or why it is none. */
function claimOf(line) {
  const [first, second] = [line.indexOf(" "), line.indexOf(" ", line.indexOf(" ") + 1)];
  if (first < 0 || second < 0) return { fault: "MissingPart" };
  const [key, signature] = [unprinted(line.slice(0, first)), unprinted(line.slice(second + 1))];
  if (key === null) return { fault: "BadEscape" };
  if (faultOfText(key)) return { fault: `Key.${faultOfText(key)}` };
  const message = bytesOfHex(line.slice(first + 1, second));
  if (message === null) return { fault: "BadHex" };
  if (signature === null) return { fault: "BadEscape" };
  if (faultOfText(signature)) return { fault: `Signature.${faultOfText(signature)}` };
  return { claim: nameOf({ key, message, signature }) };
}

const nameOf = ({ key, message, signature }) => JSON.stringify([key, hexOf(message), signature]);

/**
 * The claims that a text lists, a line each; comments and a blank last line are passed over. Throws an `Error` whose
 * message names the first line that says none.
 */
export function claimsOf(text) {
  const lines = text.split("\n").map((line, place) => [place + 1, line.replace(/\r$/, "")]);
  if (lines.at(-1)[1] === "") lines.pop();
  const records = lines.filter(([, line]) => !line.startsWith("#"));
  if (records.length && records.at(-1)[1] === "") records.pop();
  return new Set(
    records.map(([number, line]) => {
      const { claim, fault } = claimOf(line);
      if (fault) throw Object.assign(new Error(`no claim: ${fault}`), { number });
      return claim;
    }),
  );
}

/** Whether a signature belongs by the toy scheme: the digest of the key's bytes and the message. */
export function isToy({ key, message, signature }) {
  const bytes = key.startsWith("toy:") && bytesOfBase64(key.slice(4));
  return Boolean(bytes) && signature === `toy:${base64Of(sha256(joined([bytes, message])))}`;
}

/** The name of a key's scheme. */
export const schemeOf = ({ key }) => key.slice(0, key.indexOf(":"));

/** The question of a record that may come next, or null where no signature could help. */
export function questionOf(log, envelope) {
  try {
    return log.ask(envelope);
  } catch (error) {
    if (error instanceof Refused || error instanceof NoEnvelope) return null;
    throw error;
  }
}

/** Appends by the schemes that are asked for: it throws what refuses the record. */
export function appendBy(log, envelope, { toy = false, claims } = {}) {
  if (claims) {
    const question = log.ask(envelope);
    log.appendAnswered(envelope, question, claims.has(nameOf(question)));
    return;
  }
  try {
    log.appendSigned(envelope);
  } catch (error) {
    if (!(error instanceof UnknownAlgorithm)) throw error;
    const question = log.ask(envelope);
    log.appendAnswered(envelope, question, toy && isToy(question));
  }
}

/** Whether the library takes a question's signature. */
export function isSigned(library, { key, message, signature }) {
  return schemeOf({ key }) === "ecdsa-p256" && library.verify(key, message, signature);
}

/** Whether an envelope begins a log, by a scheme that is known here. */
export function begins(log, envelope) {
  const question = questionOf(log, envelope);
  return question !== null && (isToy(question) || isSigned(log.library, question));
}


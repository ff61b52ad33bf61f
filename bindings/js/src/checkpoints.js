/**
 * A registry's checkpoints: the length and the root of its log, the root of its map, and when they were so, as
 * docs/FORMATS.md gives them. What a key signs of one, and whether a key that may has signed it.
 * @module
 */
import { bytesOf, joined, utf8Of, writtenOf } from "./bytes.js";
import { BadArgument, UnknownAlgorithm } from "./errors.js";
import { number } from "./library.js";
import { OperatorLog } from "./logs.js";
import { varint } from "./records.js";

const PREFIX = "WARG-CHECKPOINT-SIGNATURE-V0:";
// The faults of a text of JSON, in words.
const SENTENCES = {
  NotJson: "the text is no JSON",
  Missing: "it has no member",
  WrongType: "of another type is",
  BadText: "no hash is",
};
// The pieces of a text of JSON that are more than marks between them.
const TOKENS = /"(?:[^"\\]|\\.)*"|-?[0-9][0-9.eE+-]*|[[\]{}]/gu;
const DEEPEST = 127;

const fault = (name, member = "") => new BadArgument(`${name}: ${SENTENCES[name]}${member && ` ${member}`}`);

/**
 * A value of JSON, and the same with each number as a list of its digits: a number of JavaScript does not have all that
 * is said.
 */
function read(text) {
  let [depth, value, digits] = [0];
  try {
    value = JSON.parse(text);
    digits = JSON.parse(
      text.replace(TOKENS, (it) => {
        if (it === "[" || it === "{") depth++;
        if (it === "]" || it === "}") depth--;
        if (depth > DEEPEST || Number(it) === Infinity || Number(it) === -Infinity) throw new RangeError();
        return /^[-0-9]/.test(it) ? `["${it}"]` : it;
      }),
    );
  } catch {
    throw fault("NotJson");
  }
  return [value, digits];
}

function hashAt(object, name) {
  if (!Object.hasOwn(object, name)) throw fault("Missing", name);
  if (typeof object[name] !== "string") throw fault("WrongType", name);
  if (!/^sha256:[0-9a-fA-F]{64}$/.test(object[name])) throw fault("BadText", name);
  return object[name].toLowerCase();
}

function numberAt(object, digits, name) {
  if (!Object.hasOwn(object, name)) throw fault("Missing", name);
  const said = typeof object[name] === "number" ? digits[name][0] : "";
  if (!/^[0-9]+$/.test(said) || BigInt(said) >= 2n ** 64n) throw fault("WrongType", name);
  return BigInt(said);
}

function textAt(object, name) {
  if (!Object.hasOwn(object, name)) throw fault("Missing", name);
  if (typeof object[name] !== "string") throw fault("WrongType", name);
  return object[name];
}

/** Says where a value is no object. */
function isObject(value, name) {
  if (typeof value !== "object" || value === null || Array.isArray(value)) throw fault("WrongType", name);
}

function ofJson([object, digits], isTimestamped, name = "the whole") {
  isObject(object, name);
  const found = {
    logRoot: hashAt(object, "logRoot"),
    logLength: numberAt(object, digits, "logLength"),
    mapRoot: hashAt(object, "mapRoot"),
  };
  return Object.freeze(isTimestamped ? { ...found, timestamp: numberAt(object, digits, "timestamp") } : found);
}

/**
 * The checkpoint that a text of JSON says. Throws `BadArgument` by the name of the first fault: `NotJson`, `WrongType`,
 * `Missing` or `BadText`.
 */
export const parse = (text) => ofJson(read(text), false);

/** The checkpoint with its time, in seconds since 1970, that a text of JSON says. Throws `BadArgument` as `parse`. */
export const parseTimestamped = (text) => ofJson(read(text), true);

/**
 * The signed checkpoint that a text of JSON says: `contents`, `keyId` and `signature`. Whether they belong together,
 * `verifyCheckpoint` of an `OperatorLog` says. Throws `BadArgument` as `parse`.
 */
export function parseSigned(text) {
  const [whole, digits] = read(text);
  isObject(whole, "the whole");
  if (!Object.hasOwn(whole, "contents")) throw fault("Missing", "contents");
  const checkpoint = ofJson([whole.contents, digits.contents], true, "contents");
  return Object.freeze({ checkpoint, keyId: textAt(whole, "keyId"), signature: textAt(whole, "signature") });
}

/** The text of JSON of a checkpoint, with its time or without one. */
export function toJson({ logRoot, logLength, mapRoot, timestamp }) {
  const time = timestamp === undefined ? "" : `,"timestamp":${number(timestamp)}`;
  const roots = [logRoot, mapRoot].map((it) => JSON.stringify(it));
  return `{"logLength":${number(logLength)},"logRoot":${roots[0]},"mapRoot":${roots[1]}${time}}`;
}

/** The text of JSON of a signed checkpoint. */
export function signedToJson({ checkpoint, keyId, signature }) {
  return `{"contents":${toJson(checkpoint)},"keyId":${JSON.stringify(keyId)},"signature":${JSON.stringify(signature)}}`;
}

const textPart = (text) => joined([varint(writtenOf(text).length), writtenOf(text)]);

/** The bytes of a checkpoint, with its time or without one. */
export function contents({ logRoot, logLength, mapRoot, timestamp }) {
  const name = timestamp === undefined ? "WARG-CHECKPOINT-V0" : "WARG-TIMESTAMPED-CHECKPOINT-V0";
  const parts = [utf8Of(name), varint(number(logLength)), textPart(logRoot), textPart(mapRoot)];
  return joined(timestamp === undefined ? parts : [...parts, varint(number(timestamp))]);
}

/** What is signed of the bytes of a checkpoint with its time. */
export const message = (bytes) => joined([utf8Of(PREFIX), bytesOf(bytes)]);

/** What a call gives, or false where a text can't be read, or a key is of another algorithm than the library's. */
function readable(call) {
  try {
    return call();
  } catch (error) {
    if ((error instanceof BadArgument && error.name === "BadText") || error instanceof UnknownAlgorithm) return false;
    throw error;
  }
}

/**
 * Whether a key that may sign checkpoints by an operator log has signed this one, which has its time. The library says
 * so, or `verify`, which gets the question of a key that may. A key of another algorithm than the library verifies has
 * signed nothing without a `verify`, and what can't be read is signed by no one.
 */
export async function isSigned(operators, { checkpoint, keyId, signature }, verify) {
  if (!(operators instanceof OperatorLog)) throw new TypeError("the keys of checkpoints stand in an OperatorLog");
  if (!verify) return readable(() => operators.verifyCheckpoint(checkpoint, keyId, signature));
  const key = operators.publicKey(keyId);
  if (key === null || !operators.holds(keyId, "commit")) return false;
  const signed = readable(() => operators.library.checkpointMessage(checkpoint));
  if (signed === false) return false;
  const belongs = await verify({ key, message: signed, signature });
  if (typeof belongs !== "boolean") {
    throw new TypeError(`whether a signature belongs is true or false, and not a ${typeof belongs}`);
  }
  return belongs;
}

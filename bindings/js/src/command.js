/**
 * `weoldrin audit package LOG`: the words and the JSON of the repository's tool, by the library as WebAssembly.
 * @module
 */
import { answerOf } from "./answers.js";
import { textOf } from "./bytes.js";
import { WeoldrinError } from "./errors.js";
import { Unread, bytesOfPath, print, sentenceOf, tell } from "./inputs.js";
import { Library } from "./library.js";
import { printable, printableJson } from "./printing.js";
import { claimsOf } from "./schemes.js";
import { HELP, HELP_OF_AUDIT, WrongWords, askedOf, noCommand } from "./words.js";

// What ends a command for want of a file, with the sentence that is told.
class Stop extends Error {
  constructor(sentence, status) {
    super(sentence);
    this.status = status;
  }
}

const object = (members, status) => printableJson({ command: "audit", ...members, status });

function readOrStop(path, most) {
  try {
    return bytesOfPath(path, most);
  } catch (error) {
    if (error instanceof Unread) throw new Stop(sentenceOf(path, error.message), error.status);
    throw error;
  }
}

function textOrStop(path, most, fault) {
  const bytes = readOrStop(path, most);
  try {
    return textOf(bytes);
  } catch {
    throw new Stop(sentenceOf(path, fault), 2);
  }
}

/** The claims in a file. */
function claimsIn(path, most) {
  const text = textOrStop(path, most, "it is no UTF-8");
  try {
    return claimsOf(text);
  } catch (error) {
    throw new Stop(sentenceOf(path, error.message, error.number), 2);
  }
}

/** The paths that a word stands for: itself, or those that a file lists, a line each. */
function pathsOf(word, most) {
  if (!word.startsWith("@")) return { paths: [word] };
  const lines = textOrStop(word.slice(1), most, "its paths are no UTF-8").split("\n");
  const whole = lines.map((it, place) => (place < lines.length - 1 ? it.replace(/\r$/, "") : it));
  return { list: word.slice(1), paths: whole.filter((it) => it !== "") };
}

/** A line of one log of many. */
function lineOf(asked, path, { text, members, status }) {
  return asked.json ? object({ path, ...members }, status) : `${printable(path)}: ${text}`;
}

const end = (lines, status) => (print(lines.map((it) => `${it}\n`).join("")) ? status : 3);

function auditMany(first, asked, words) {
  const [lines, statuses] = [[], [0]];
  let library = first;
  for (const { list, paths } of words) {
    if (!paths.length && !asked.allowEmpty) {
      lines.push(asked.json ? object({ path: list, verdict: "empty" }, 1) : "empty");
      statuses.push(1);
    }
    for (const path of paths) {
      // One that trapped is given up: the next log is judged by another one.
      if (library.isGivenUp) library = new Library(library.module);
      const found = answerOf(library, asked, path);
      lines.push(lineOf(asked, path, found));
      statuses.push(found.status);
    }
  }
  return end(lines, Math.max(...statuses));
}

function auditOne(library, asked, path) {
  const { text, members, status, told, more, isUnread } = answerOf(library, asked, path);
  if (isUnread && !asked.paths) throw new Stop(sentenceOf(path, text), status);
  for (const it of told) tell(`${it}\n`);
  if (asked.paths) return end([lineOf(asked, path, { text, members, status })], status);
  const lines = [{ text, members }, ...more];
  return end(lines.map((it) => (asked.json ? object(it.members, status) : it.text)), status);
}

async function audit(asked) {
  const { expectHead, limit, verified, logs } = asked;
  if (expectHead !== undefined && !/^sha256:[0-9a-fA-F]{8,64}$/.test(expectHead)) {
    throw new Stop(printable(`weoldrin: "${expectHead}" is no id of a record`), 2);
  }
  const claims = verified === undefined ? undefined : claimsIn(verified, limit);
  const library = await Library.load();
  if (logs.length < 2 && !logs[0]?.startsWith("@")) {
    return auditOne(library, { ...asked, claims }, logs[0] ?? "-");
  }
  return auditMany(library, { ...asked, claims }, logs.map((it) => pathsOf(it, limit)));
}

async function auditByWords(words) {
  let asked;
  try {
    asked = askedOf(words);
    return asked === null ? end([HELP_OF_AUDIT.trimEnd()], 0) : await audit(asked);
  } catch (error) {
    const isStop = error instanceof Stop || error instanceof WeoldrinError || error.path !== undefined;
    if (!(error instanceof WrongWords) && !isStop) throw error;
    const told = error instanceof WeoldrinError ? `weoldrin: ${error.message}` : error.message;
    const status = error.status ?? (error instanceof WeoldrinError ? 3 : 2);
    return ended(words, asked, error.path === undefined ? told : sentenceOf(error.path, told), status);
  }
}

/** Ends where nothing is printed: the sentence is told, and where JSON is asked for of one log, it is an object too. */
function ended(words, asked, sentence, status) {
  tell(`${sentence}\n`);
  const end = words.indexOf("--");
  const isOne = asked === undefined || !(asked.paths || asked.logs.length > 1 || asked.logs[0]?.startsWith("@"));
  const isJson = (end < 0 ? words : words.slice(0, end)).includes("--json");
  if (isJson && isOne && !print(`${object({ message: sentence.split("\n")[0] }, status)}\n`)) return 3;
  return status;
}

async function version() {
  const library = await Library.load();
  const lines = [`weoldrin ${library.version()}`, "the library is WebAssembly"];
  return end([...lines, "input: files of hex, one envelope a line"], 0);
}

/**
 * Runs the words of a command line, and gives the exit status.
 * @param {string[]} words
 */
export async function main(words) {
  const [first, ...rest] = words;
  try {
    if (first === "audit") return await auditByWords(rest);
    if (first === "--version" || first === "-V") return await version();
    if (["--help", "-h"].includes(first) || (first === "help" && !rest.length)) return end([HELP.trimEnd()], 0);
    if (first === "help" && rest[0] === "audit") return end([HELP_OF_AUDIT.trimEnd()], 0);
    if (first === undefined) throw new WrongWords(HELP.trimEnd());
    throw noCommand(first === "help" ? rest[0] : first);
  } catch (error) {
    if (!(error instanceof WrongWords) && !(error instanceof WeoldrinError)) throw error;
    tell(`${error instanceof WrongWords ? "" : "weoldrin: "}${error.message}\n`);
    const isJson = words.slice(0, words.includes("--") ? words.indexOf("--") : undefined).includes("--json");
    const told = { command: "", message: error.message.split("\n")[0], status: 2 };
    if (isJson && !print(`${printableJson(told)}\n`)) return 3;
    return error instanceof WeoldrinError ? 3 : 2;
  }
}

/**
 * The words of the command.
 * @module
 */
import { MOST } from "./inputs.js";
import { printable } from "./printing.js";

/** Words that can't be used, and the whole of what is said of them. */
export class WrongWords extends Error {}

export const HELP = `Checks the logs of a package registry

Usage: weoldrin <COMMAND>

Commands:
  audit  Prints the verdict on a log, or a line on each of many
  help   Print this message or the help of the given subcommand

Options:
  -h, --help     Print help
  -V, --version  Print version

A log is a file of lines, each a signed record in hex. Comments, which begin
with #, are passed over, and so is a blank last line. - is standard input.
Options may stand anywhere behind the command; -- ends them.

Status: 0 yes, 1 a negative answer, whose text is on standard output, 2 wrong
words or unreadable input, 3 a failed read or write, or out of memory.
`;

const USAGE = "Usage: weoldrin audit [OPTIONS] <KIND> [LOG]...";

export const HELP_OF_AUDIT = `Prints the verdict on a log, or a line on each of many

${USAGE}

Arguments:
  <KIND>    What the log is of [possible values: package, operator]
  [LOG]...  The logs' files, or @FILE for those that a file lists

Options:
      --json                 Answers in JSON, an object a line
      --limit <BYTES>        How many bytes a file may have, 16777216 where this is not given
      --verified <FILE>      Takes the signatures that this file lists, and no others
      --toy                  Also takes signatures of the toy scheme, which anyone can forge
      --allow-empty          Takes a log without records
      --paths                Prints the log's path before each line, as for many logs
      --expect-head <ID>     The id that the last record has to have; with one log alone
      --at-least <N>         How many records there have to be; with one log alone
      --goes-on-from <FILE>  An older copy, which the log has to go on from; with one log alone
  -h, --help                 Print help

Examples:
  weoldrin audit package log.hex
  weoldrin audit package log.hex --at-least 3 --goes-on-from older.hex
  weoldrin audit package logs/*.hex
  weoldrin audit package @paths.txt   (the file has a path on each line)
`;

const FLAGS = ["--json", "--toy", "--allow-empty", "--paths"];
const VALUES = {
  "--limit": "<BYTES>",
  "--verified": "<FILE>",
  "--expect-head": "<ID>",
  "--at-least": "<N>",
  "--goes-on-from": "<FILE>",
};
// Commands that the tool of the repository has beside, which has no other of this name.
const OTHERS = (
  "id show state resume head resumed-head latest permissions chain compare claims make append log-id prove verify " +
  "message leaf"
).split(" ");

const MORE = "\n\nFor more information, try '--help'.";

// What strangers wrote is printable before it gets here.
const wrong = (sentence, more = "") => new WrongWords(`error: ${sentence}${more}${MORE}`);

/** How many letters have to be changed, left out or put in to come from a word to another. */
function distance(left, right) {
  let row = [...Array(right.length + 1).keys()];
  [...left].forEach((sign, place) => {
    const next = [place + 1];
    [...right].forEach((other, at) => {
      next.push(Math.min(next[at] + 1, row[at + 1] + 1, row[at] + (sign === other ? 0 : 1)));
    });
    row = next;
  });
  return row[right.length];
}

/** A word that may have been meant, as a line of a tip, or nothing. */
function tip(word, known, what) {
  const near = known.filter((it) => distance(word, it) <= 2);
  return near.length ? `\n\n  tip: a similar ${what} exists: '${near[0]}'` : "";
}

/** The option that a word is, with the value in it. Throws `WrongWords`. */
function optionOf(word, found) {
  const at = word.indexOf("=");
  const [name, value] = at < 0 ? [word, undefined] : [word.slice(0, at), word.slice(at + 1)];
  if (name === "-h" || name === "--help") return ["--help", undefined];
  const shown = printable(name);
  if (!FLAGS.includes(name) && !Object.hasOwn(VALUES, name)) {
    const known = [...FLAGS, ...Object.keys(VALUES), "--help"];
    throw wrong(`unexpected argument '${shown}' found`, `${tip(name, known, "argument")}\n\n${USAGE}`);
  }
  if (FLAGS.includes(name) && value !== undefined) {
    throw wrong(`unexpected value '${printable(value)}' for '${name}' found; no more were expected`, `\n\n${USAGE}`);
  }
  if (found.has(name)) {
    const told = `${name}${VALUES[name] ? ` ${VALUES[name]}` : ""}`;
    throw wrong(`the argument '${told}' cannot be used multiple times`, `\n\n${USAGE}`);
  }
  return [name, value];
}

/** The options and the places of words behind a command. Throws `WrongWords`. */
function parted(words) {
  const [options, places] = [new Map(), []];
  const rest = [...words];
  for (let word; (word = rest.shift()) !== undefined; ) {
    if (word === "--") {
      places.push(...rest.splice(0));
    } else if (word.startsWith("-") && word !== "-") {
      const [name, said] = optionOf(word, options);
      let value = said;
      if (VALUES[name] && value === undefined) {
        if (rest[0] === undefined || (rest[0].startsWith("-") && rest[0] !== "-")) {
          throw wrong(`a value is required for '${name} ${VALUES[name]}' but none was supplied`);
        }
        value = rest.shift();
      }
      options.set(name, value ?? true);
    } else {
      places.push(word);
    }
  }
  return [options, places];
}

/** Whether an option says a number below 2^64, where it is given. */
const isNumber = (digits) => digits === undefined || (/^[0-9]+$/.test(digits) && BigInt(digits) < 2n ** 64n);

function checkTogether(options, logs) {
  const files = [...logs, options.get("--verified"), options.get("--goes-on-from")];
  if (files.filter((it) => it === "-").length > 1 || (!logs.length && files.includes("-"))) {
    throw wrong("standard input, which is -, can be read once alone");
  }
  if (options.has("--toy") && options.has("--verified")) throw wrong("--toy and --verified can't stand together");
  if (!isNumber(options.get("--at-least"))) throw wrong("--at-least takes decimal digits, a number below 2^64");
  if (!isNumber(options.get("--limit"))) throw wrong("--limit takes decimal digits, a number of bytes below 2^64");
  const isOne = logs.length < 2 && !logs.some((it) => it.startsWith("@"));
  const demands = ["--expect-head", "--at-least", "--goes-on-from"];
  if (!isOne && demands.some((it) => options.has(it))) {
    throw wrong("--expect-head, --at-least and --goes-on-from are of one log alone");
  }
}

/** What is asked of an audit, or null where its help is. Throws `WrongWords`. */
export function askedOf(words) {
  const end = words.indexOf("--");
  const open = end < 0 ? words : words.slice(0, end);
  if (open.some((it) => it === "-h" || it === "--help")) return null;
  const [options, [kind, ...logs]] = parted(words);
  if (kind === undefined) {
    throw wrong("the following required arguments were not provided:", `\n  <KIND>\n\n${USAGE}`);
  }
  if (kind !== "package" && kind !== "operator") {
    const near = tip(kind.toLowerCase(), ["package", "operator"], "value");
    throw wrong(`invalid value '${printable(kind)}' for '<KIND>'`, `\n  [possible values: package, operator]${near}`);
  }
  checkTogether(options, logs);
  const [least, limit] = ["--at-least", "--limit"].map((it) => options.get(it));
  return {
    kind,
    logs,
    json: options.has("--json"),
    limit: limit === undefined ? MOST : Number(limit),
    toy: options.has("--toy"),
    allowEmpty: options.has("--allow-empty"),
    paths: options.has("--paths"),
    verified: options.get("--verified"),
    expectHead: options.get("--expect-head"),
    atLeast: least === undefined ? undefined : BigInt(least),
    goesOnFrom: options.get("--goes-on-from"),
  };
}

/** What is said of a word that is no command. */
export function noCommand(word) {
  const shown = printable(word);
  if (OTHERS.includes(word)) {
    return wrong(
      `'${shown}' is a command of the repository's tool, and not of this package`,
      `\n\nUsage: weoldrin <COMMAND>`,
    );
  }
  return wrong(
    `unrecognized subcommand '${shown}'`,
    `${tip(word, ["audit", "help"], "subcommand")}\n\nUsage: weoldrin <COMMAND>`,
  );
}

// Wrong bodies of the package, each of which a test has to see.
import { ROOT } from "./place.js";
import assert from "node:assert/strict";
import { spawnSync } from "node:child_process";
import { cpSync, mkdirSync, mkdtempSync, readFileSync, rmSync, writeFileSync } from "node:fs";
import { tmpdir } from "node:os";
import { execPath } from "node:process";
import { after, test } from "node:test";
import { fileURLToPath } from "node:url";
import { WRONG_TREES } from "./wrong_trees.js";

const PACKAGE = fileURLToPath(new URL(".", import.meta.resolve("weoldrin/package.json")));
const folder = mkdtempSync(`${tmpdir()}/weoldrin-`);
after(() => rmSync(folder, { recursive: true }));

/** The file, a text in it, what stands there in its place, and the tests that see it. */
const WRONG = {
  "an old buffer is read after memory grew": [
    "memory.js",
    "if (this.#bytes.buffer !== buffer) {",
    "if (!this.#view) {",
    "memory",
  ],
  "33 bytes of DER are cut from the wrong end": [
    "p256.js",
    "bytes.subarray(1) : bytes;",
    "bytes.subarray(0, 32) : bytes;",
    "p256",
    "DER",
  ],
  "a number of DER stands at the left end": [
    "p256.js",
    "whole.set(least, 32 - least.length);",
    "whole.set(least);",
    "p256",
    "DER",
  ],
  "DER may have bytes behind it": [
    "p256.js",
    "bytes[1] !== bytes.length - 2",
    "bytes[1] > bytes.length - 2",
    "p256",
    "DER",
  ],
  "a short point is made whole by the wrong root": [
    "p256.js",
    "if (isShort && Number(y & 1n) !== (first & 1)) y = mod(-y);",
    "",
    "p256",
    "point|saved",
  ],
  "a point need not be on the curve": ["p256.js", "|| (y * y) % PRIME !== square", "", "p256", "point"],
  "base64 may be written otherwise": [
    "bytes.js",
    "return base64Of(bytes) === text ? bytes : null;",
    "return bytes;",
    "p256",
    "in one way",
  ],
  "WebCrypto is asked of any algorithm": [
    "p256.js",
    "|| !text.startsWith(`${ALGORITHM}:`)",
    "",
    "p256",
    "says why|texts",
  ],
  "a mark of the byte order is dropped": ["bytes.js", "ignoreBOM: true", "ignoreBOM: false", "logs", "namespaces"],
  "half a pair is another character": ["bytes.js", "if (!HALF.test(text)) return", "return", "logs", "namespaces"],
  "an answer may be anything": ["logs.js", 'typeof belongs !== "boolean"', "false", "logs", "answered"],
  "a promise is a yes": ["logs.js", "await verify(question)", "Boolean(verify(question))", "logs", "answered"],
  "bytes may change while a verifier runs": [
    "logs.js",
    "bytesOf(envelope).slice()",
    "bytesOf(envelope)",
    "logs",
    "change",
  ],
  "a closed log is closed again": [
    "held.js",
    "this.#handle = undefined;\n    this.#library",
    "this.#library",
    "memory",
    "closed again",
  ],
  "a closed log is closed where it is forgotten": [
    "held.js",
    "    forgotten.unregister(this);\n",
    "",
    "memory",
    "once more",
  ],
  "a forgotten log stays": [
    "held.js",
    "    forgotten.register(this, { library, at: this.#handle, close: calls.close }, this);\n",
    "",
    "memory",
    "forgotten is closed",
  ],
  "what was passed stays": ["library.js", "if (it.size > KEPT_ROOM) it.giveBack()", "void it", "memory", "larger"],
  "what is chained stays": [
    "logs.js",
    "if (!this.library.isGivenUp) this.library.givenBack(at);",
    "",
    "memory",
    "given back",
  ],
  "a view of memory is given away": [
    "library.js",
    "const copyOf = (bytes) => bytes.slice();",
    "const copyOf = (bytes) => bytes;",
    "memory",
    "stays as it is",
  ],
  "a handle that could not be opened stays": [
    "held.js",
    "      library.closeHandle(this.#handle, calls.close);\n      throw error;",
    "      throw error;",
    "memory",
    "no room for",
  ],
  "a trap leaves the log open": [
    "library.js",
    "    if (this.isGivenUp) throw",
    "    if (false) throw",
    "memory",
    "stack|trap",
  ],
  "a shared library that trapped is shared on": [
    "library.js",
    "if (shared === had) shared = Library.load();",
    "shared ??= Library.load();",
    "memory",
    "stack|trap",
  ],
  "a load that failed is kept": [
    "library.js",
    "(await had.catch(() => ({ isGivenUp: true }))).isGivenUp",
    "(await had).isGivenUp",
    "engine",
    "tried again",
  ],
  "no one asks for vectors": [
    "engine.js",
    "if (!isSupported()) throw",
    "if (false) throw",
    "engine",
    "without",
  ],
  "a server's no is a module": ["engine.js", "if (!response.ok) throw", "if (false) throw", "engine", "network"],
  "control characters are printed": [
    "printing.js",
    "const ESCAPED = /[\\\\\\p{Cc}",
    "const ESCAPED = /[\\\\",
    "logs",
    "printed",
  ],
  "a sentence is printed as it came": [
    "errors.js",
    "super(printable(sentence));",
    "super(sentence);",
    "logs",
    "one line",
  ],
  "the relations are out of order": [
    "values.js",
    '  RIGHT_IS_PREFIX: "right-is-prefix",\n  FORK: "fork",\n  COLLISION: "collision",',
    '  RIGHT_IS_PREFIX: "right-is-prefix",\n  COLLISION: "collision",\n  FORK: "fork",',
    "logs",
    "compare",
  ],
  "times before 1970 are far ahead": ["logs.js", "BigInt.asIntN(64, seconds)", "seconds", "logs", "yanked"],
  "blank lines are passed over": [
    "lines.js",
    "if (held) yield held;",
    "if (held?.digits.length) yield held;",
    "auditing",
    "lines",
  ],
  "half a byte is read": [
    "lines.js",
    "let isWell = digits.length % 2 === 0;",
    "let isWell = true;",
    "auditing",
    "wrong with a file",
  ],
  "nothing is a yes": [
    "auditing.js",
    "if (!envelopes.length && !allowEmpty) throw new Empty();",
    "",
    "auditing",
    "wrong with a file",
  ],
  "verdicts come as they are done": [
    "many.js",
    "found[at.place] = verdict;",
    "found.push(verdict);",
    "auditing",
    "threads",
  ],
  "a library that trapped judges on": [
    "command.js",
    "if (library.isGivenUp) library = new Library(library.module);",
    "",
    "command",
    "has no memory",
  ],
  "a log that is refused stays": [
    "answers.js",
    "envelope, error);\n      log.close();",
    "envelope, error);",
    "command",
    "refused is closed",
  ],
  "a checkpoint's number is one of JavaScript": [
    "checkpoints.js",
    "return BigInt(said);",
    "return BigInt(Number(said));",
    "p256",
    "checkpoint",
  ],
  "a key signs that may not": [
    "checkpoints.js",
    '|| !operators.holds(keyId, "commit")',
    "",
    "checkpoints",
    "other algorithms",
  ],
  "a checkpoint that can't be read is signed": [
    "checkpoints.js",
    "instanceof UnknownAlgorithm) return false;",
    "instanceof UnknownAlgorithm) return true;",
    "checkpoints",
    "no form",
  ],
  "a signed checkpoint's contents are not looked at": [
    "checkpoints.js",
    "ofJson([whole.contents, digits.contents], true, \"contents\")",
    "whole.contents",
    "checkpoints",
    "faults of the JSON",
  ],
  "a key id may be anything": [
    "checkpoints.js",
    'if (typeof object[name] !== "string") throw fault("WrongType", name);\n  return object[name];',
    "return object[name];",
    "checkpoints",
    "faults of the JSON",
  ],
  "what is refused is signed": [
    "library.js",
    "return status === REFUSED ? false : this.isDone(name, status);\n  }\n\n  /**\n   * What",
    "return status === REFUSED || this.isDone(name, status);\n  }\n\n  /**\n   * What",
    "checkpoints",
    "may sign",
  ],
  "the roots of a checkpoint are exchanged": [
    "library.js",
    "  utf8Of(logRoot),\n  utf8Of(mapRoot),",
    "  utf8Of(mapRoot),\n  utf8Of(logRoot),",
    "checkpoints",
    "what is signed",
  ],
  "length and time of a checkpoint are exchanged": [
    "library.js",
    "  number(logLength),\n  utf8Of(logRoot),\n  utf8Of(mapRoot),\n  number(timestamp),",
    "  number(timestamp),\n  utf8Of(logRoot),\n  utf8Of(mapRoot),\n  number(logLength),",
    "checkpoints",
    "what is signed",
  ],
  "a number of a checkpoint is cut to 64 bits": [
    "library.js",
    "  number(timestamp),\n];",
    "  BigInt.asUintN(64, BigInt(timestamp)),\n];",
    "checkpoints",
    "no form",
  ],
  "a log's id is of the other kind": [
    "library.js",
    'this.filled("log_id", [KINDS.indexOf(kindOf(kind)),',
    'this.filled("log_id", [1 - KINDS.indexOf(kindOf(kind)),',
    "checkpoints",
    "ids of logs",
  ],
  "a log of no kind has an id": [
    "library.js",
    'this.filled("log_id", [KINDS.indexOf(kindOf(kind)),',
    'this.filled("log_id", [KINDS.indexOf(kind),',
    "checkpoints",
    "names that no log",
  ],
  "the ids of a leaf are exchanged": [
    "library.js",
    "[utf8Of(logId), utf8Of(recordId)]",
    "[utf8Of(recordId), utf8Of(logId)]",
    "checkpoints",
    "leaves",
  ],
  "a checkpoint's key and signature are exchanged": [
    "logs.js",
    "utf8Of(keyId), utf8Of(signature)]);\n  }\n}",
    "utf8Of(signature), utf8Of(keyId)]);\n  }\n}",
    "checkpoints",
    "keys that may sign",
  ],
  "a message is of another library": [
    "proofs.js",
    'byLibrary("checkpointMessage", 1)',
    'byLibrary("checkpointMessage", 0)',
    "checkpoints",
    "what is signed",
  ],
  "no sentence tells of a root that is none": [
    "library.js",
    '  checkpoint_message: "BadText: a root is not the text of one",\n',
    "",
    "checkpoints",
    "no form",
  ],
  "no sentence tells of an id that is none": [
    "library.js",
    '  leaf: "BadText: an id is not the text of one",\n',
    "",
    "checkpoints",
    "leaves",
  ],
  "no sentence tells of a signature that can't be read": [
    "library.js",
    "  verify_checkpoint: \"BadText: ",
    "  verify_checkpoints: \"BadText: ",
    "checkpoints",
    "other texts",
  ],
  "the number of a resumed log's records is forgotten": [
    "logs.js",
    'count === undefined ? ["resume", []]',
    'true ? ["resume", []]',
    "logs",
    "saved state",
  ],
  "any number counts the records of a resumed log": [
    "logs.js",
    '["resume_counted", [number(count)]]',
    '["resume_counted", [BigInt.asUintN(64, BigInt(Math.trunc(Number(count))))]]',
    "logs",
    "saved state",
  ],
  ...WRONG_TREES,
};

function run(name, [file, old, fresh, tests, pattern]) {
  const place = `${folder}/${Object.keys(WRONG).indexOf(name)}`;
  mkdirSync(`${place}/node_modules/weoldrin`, { recursive: true });
  for (const it of ["package.json", "bin", "src", "libwarg.wasm"]) {
    cpSync(`${PACKAGE}/${it}`, `${place}/node_modules/weoldrin/${it}`, { recursive: true });
  }
  cpSync(new URL(".", import.meta.url), `${place}/tests`, { recursive: true });
  writeFileSync(`${place}/package.json`, '{"type":"module"}');
  const path = `${place}/node_modules/weoldrin/src/${file}`;
  const text = readFileSync(path, "utf8");
  assert.equal(text.split(old).length, 2, `${name}: ${file} has not once ${old}`);
  writeFileSync(path, text.replace(old, () => fresh));
  const words = ["--test", ...(pattern ? [`--test-name-pattern=${pattern}`] : []), `${place}/tests/${tests}.test.js`];
  const { WEOLDRIN_LIBRARY, NODE_TEST_CONTEXT, ...others } = process.env;
  const env = { ...others, WEOLDRIN_ROOT: fileURLToPath(ROOT) };
  return spawnSync(execPath, words, { encoding: "utf8", timeout: 120_000, env, cwd: place });
}

for (const [name, wrong] of Object.entries(WRONG)) {
  test(`it is seen: ${name}`, () => {
    const { status, stdout } = run(name, wrong);
    assert.ok(status !== 0 && /^# fail [1-9]/m.test(stdout), stdout);
  });
}

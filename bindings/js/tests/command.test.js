// The command on the rows of the tool, and beside the tool itself.
import { ROOT, at, without } from "./place.js";
import assert from "node:assert/strict";
import { spawnSync } from "node:child_process";
import {
  copyFileSync,
  existsSync,
  mkdirSync,
  mkdtempSync,
  openSync,
  closeSync,
  readFileSync,
  readdirSync,
  rmSync,
  writeFileSync,
} from "node:fs";
import { tmpdir } from "node:os";
import { execPath } from "node:process";
import { after, test } from "node:test";
import { fileURLToPath } from "node:url";
import { envelopes, keys, textOf } from "./published.js";
import { TRAP, atMost, standIn, status } from "./stand_in.js";

const COMMAND = fileURLToPath(new URL("bin/weoldrin.js", import.meta.resolve("weoldrin/package.json")));
const TOOL = at("dist/x86_64-linux/weoldrin");
const folders = [];
after(() => folders.forEach((it) => rmSync(it, { recursive: true })));

const whole = (value) => (typeof value === "string" ? value : value.map((line) => `${line}\n`).join(""));

/** A folder with the files that a row reads: the examples' inputs, and those that it says itself. */
function laidOut(row) {
  const folder = mkdtempSync(`${tmpdir()}/weoldrin-`);
  folders.push(folder);
  for (const name of readdirSync(at("examples")).filter((it) => it.endsWith(".hex"))) {
    copyFileSync(at(`examples/${name}`), `${folder}/${name}`);
  }
  for (const [name, value] of Object.entries(row.files ?? {})) writeFileSync(`${folder}/${name}`, whole(value));
  for (const name of row.folders ?? []) mkdirSync(`${folder}/${name}`, { recursive: true });
  return folder;
}

function run(program, words, cwd, input = "") {
  const { stdout, stderr, status } = spawnSync(
    program[0],
    [...program.slice(1), ...words],
    { cwd, input, encoding: "utf8" },
  );
  return { printed: stdout, said: stderr, status };
}

const byNode = [execPath, COMMAND];

// Rows of other commands, and of what the two programs word by themselves.
function isPlayed({ words, prints_with: helps }) {
  if (words[0] === "audit") return !words.includes("--help");
  return !words.length || (["--help", "-h", "help"].includes(words[0]) && words.length === 1 && helps !== undefined);
}

/** The fragments of help that name commands of the tool alone. */
const OTHERS =
  "id|show|state|resume|head|resumed-head|latest|permissions|chain|compare|claims|make|append|log-id|prove|verify|" +
  "message|leaf";
const isOwn = (fragment) => !new RegExp(`^\\n {2}(${OTHERS}) `).test(fragment);

test("the rows of the tool that ask for an audit", { skip: without("conformance/tool") }, (context) => {
  const rows = ["audit", "words"].flatMap((it) => JSON.parse(readFileSync(at(`conformance/tool/${it}.json`), "utf8")));
  const wrong = [];
  let played = 0;
  for (const row of rows.filter(isPlayed)) {
    const prints = row.prints?.file ? readFileSync(at(row.prints.file), "utf8") : whole(row.prints ?? []);
    const { printed, said, status } = run(byNode, row.words, laidOut(row), whole(row.input ?? []));
    const seen = { printed, said, status };
    const lacks = (name, text) => (row[name] ?? []).filter(isOwn).filter((it) => !text.includes(it));
    const isWell =
      status === row.status &&
      (row.prints_with ? !lacks("prints_with", printed).length : printed === prints) &&
      (row.says_with ? !lacks("says_with", said).length : said === whole(row.says ?? []));
    if (!isWell) wrong.push([row.row, row.words, seen]);
    played++;
  }
  context.diagnostic(`${played} rows of the tool played`);
  assert.deepEqual(wrong, []);
  assert.ok(played > 90);
});

const LEFT_OUT = existsSync(TOOL) && process.arch === "x64" ? false : "the tool is not here";

test("beside the tool", { skip: LEFT_OUT }, async () => {
  const folder = laidOut({});
  const made = textOf(await envelopes(3, ...(await keys())));
  const files = {
    good: made,
    two: made.split("\n").slice(0, 2).join("\n"),
    marked: `\ufeff${made}`,
    zeros: "\0\0\n",
    utf16: Buffer.from(made, "utf16le"),
    blank: `${made}\n\n`,
    odd: "abc",
    big: "0".repeat(16_777_217),
    most: `#${"x".repeat(16_777_214)}\n`,
    list: "good\n\ntwo\r\nnone\nx\x1b\u202e\n",
    "list-cr": "good\ntwo\r",
    mixed: [made, readFileSync(`${folder}/operator_namespaces.hex`, "utf8")].map((it) => it.split("\n")[0]).join("\n"),
    "no-list": Buffer.from("ff0a", "hex"),
    "empty-list": "\n\n",
    claims: "toy:YQ== 00 toy:YQ==\n",
    "no-claims": "toy:YQ== 00\n",
    "claims-escape": "toy\\u{20}:YQ== 00 x\\y:YQ==\n",
  };
  for (const [name, text] of Object.entries(files)) writeFileSync(`${folder}/${name}`, text);
  mkdirSync(`${folder}/folder`);
  const head = run(byNode, ["audit", "package", "good"], folder).printed.split(" ")[2];
  const capitals = `sha256:${head.slice(7, 20).toUpperCase()}`;
  const all = [
    "package good", "package two", "operator good", "package blank", "package odd", "package big", "package most",
    "package folder", "package big --limit 16777217", "package most --limit 16777215", "package good --limit 0",
    "package good two --limit 2000", "package two --limit 2000 --goes-on-from good", "package @list --limit 9",
    "package good --verified claims --limit 9", "package good --limit 18446744073709551615", "package good --limit=+9", "package good/x", "package none", "package", "package -", "package - --goes-on-from good",
    "package good two none folder odd big", "package none good", "package @list-cr", "package mixed --toy",
    "package good --expect-head sha256:", `package good --expect-head ${capitals}`,
    "package @list", "package @no-list", "package @empty-list", "package @none",
    "package @empty-list @empty-list --allow-empty", "package @folder", "package good --goes-on-from two",
    "package two --goes-on-from good", "package good --goes-on-from none", "package good --goes-on-from folder",
    "package good --goes-on-from odd", "package good --goes-on-from package_releases.hex",
    "package package_releases.hex --toy --goes-on-from good", "package good --at-least 3", "package good --at-least 4",
    "package good --expect-head sha256:00000000", "package good --expect-head x", "package none --expect-head x",
    "package good --verified claims", "package good --verified no-claims", "package good --verified claims-escape",
    "package good --verified none", "package good --verified folder", "package none --verified none2",
    "package package_forged.hex --toy", "package package_unauthorized.hex --toy", "package package_unauthorized.hex",
    "package package_bad_line.hex", "package package_yanked.hex --toy", "operator operator_namespaces.hex --toy",
    "operator package_yanked.hex --toy", "package operator_namespaces.hex", "package -- -x", "operator -- good",
  ];
  const wrong = [];
  const asJson = (it) => `${it.replace(" -- ", " --json -- ")}${it.includes(" -- ") ? "" : " --json"}`;
  for (const words of all.flatMap((it) => [it, asJson(it), `--paths ${it}`])) {
    const split = ["audit", ...words.split(" ")];
    const [tool, own] = [[fileURLToPath(TOOL)], byNode].map((it) => run(it, split, folder));
    if (JSON.stringify(tool) !== JSON.stringify(own)) wrong.push({ words, tool, own });
  }
  assert.deepEqual(wrong, []);
});

test("what no one reads", () => {
  const folder = laidOut({});
  const full = openSync("/dev/full", "w");
  const words = [COMMAND, "audit", "--toy", "package", "package_releases.hex"];
  const done = spawnSync(execPath, words, { cwd: folder, stdio: ["ignore", full, "pipe"], encoding: "utf8" });
  closeSync(full);
  assert.deepEqual([done.status, done.stderr], [3, "weoldrin: standard output could not be written\n"]);
  const many = Array.from({ length: 20_000 }, () => "package_releases.hex").join("\n");
  writeFileSync(`${folder}/many`, many);
  const gone = spawnSync(
    "sh",
    ["-c", '"$0" "$1" audit --toy package @many | head -n 1', execPath, COMMAND],
    { cwd: folder, encoding: "utf8" },
  );
  assert.deepEqual([gone.stderr, gone.stdout.split("\n").length], ["", 2]);
});

test("commands of the tool that are not here", () => {
  const { said, status, printed } = run(byNode, ["show", "package", "x", "--json"], fileURLToPath(ROOT));
  assert.match(said, /^error: 'show' is a command of the repository's tool, and not of this package/);
  assert.deepEqual([status, JSON.parse(printed).status], [2, 2]);
});

/** What the command answers by a library that does what it is told. */
function byStandIn(calls, ...words) {
  // The byte is where the call says how long the text of an error is.
  const folder = laidOut({ files: { good: ["05"] } });
  writeFileSync(`${folder}/library.wasm`, standIn(calls));
  const env = { ...process.env, WEOLDRIN_LIBRARY: `${folder}/library.wasm` };
  const done = spawnSync(execPath, [COMMAND, "audit", "package", ...words], { cwd: folder, encoding: "utf8", env });
  return [done.stdout, done.stderr, done.status];
}

test("a library that has no memory, or traps", () => {
  assert.deepEqual(byStandIn({ append: status(2) }, "good"), ["", "weoldrin: good: out of memory\n", 3]);
  const lines = "good: out of memory\ngood: out of memory\n";
  assert.deepEqual(byStandIn({ append: status(2) }, "good", "good"), [lines, "", 3]);
  const [printed, said, ended] = byStandIn({ append: TRAP }, "good");
  assert.match(said, /^weoldrin: good: the library trapped, and its logs are closed: RuntimeError: .*\n$/);
  assert.deepEqual([printed, ended], ["", 3]);
  // Of many each is judged by another library.
  const [many, told, last] = byStandIn({ append: TRAP }, "good", "good", "good");
  assert.match(many, /^(good: the library trapped, and its logs are closed: RuntimeError: .*\n){3}$/);
  assert.deepEqual([told, last], ["", 3]);
});

test("a log that is refused is closed", () => {
  const calls = { append: status(5), ask: status(5), open: atMost(2) };
  const [printed, said, ended] = byStandIn(calls, "good", "good", "good", "good");
  assert.match(printed, /^(good: refused 0 .*\n){4}$/);
  assert.deepEqual([said, ended], ["", 1]);
});

test("a library that is not there", () => {
  const environment = { ...process.env, WEOLDRIN_LIBRARY: "/none/x" };
  const done = spawnSync(
    execPath,
    [COMMAND, "audit", "package", "-"],
    { input: "", env: environment, encoding: "utf8" },
  );
  assert.deepEqual([done.status, done.stdout], [3, ""]);
  assert.match(done.stderr, /^weoldrin: the library can't be had from file:\/\/\/none\/x: ENOENT/);
});

// Audits of files: what is wrong with one is in its verdict, in words.
import { ROOT, at } from "./place.js";
import assert from "node:assert/strict";
import { chmodSync, mkdirSync, mkdtempSync, readFileSync, rmSync, symlinkSync, writeFileSync } from "node:fs";
import { tmpdir } from "node:os";
import { after, test } from "node:test";
import { pathToFileURL } from "node:url";
import {
  BadLine,
  Empty,
  Library,
  Missing,
  Unreadable,
  auditBytes,
  auditFile,
  auditMany,
  envelopesOf,
  p256,
} from "weoldrin";
import { envelopes, keys, operatorLog, textOf } from "./published.js";
import { standIn } from "./stand_in.js";
import * as toy from "./toy.js";

const folder = mkdtempSync(`${tmpdir()}/weoldrin-`);
after(() => rmSync(folder, { recursive: true }));
const [alice, bob] = await keys();
const made = await envelopes(4, alice, bob);
const good = textOf(made);

function file(name, text) {
  writeFileSync(`${folder}/${name}`, text);
  return `${folder}/${name}`;
}

const goodFile = file("good.hex", good);
const head = (await auditFile(goodFile, "package")).head;

test("a lawful log, by each verifier", async () => {
  for (const verify of [undefined, null, p256.verify, p256.verifyByWebCrypto]) {
    const found = await auditFile(goodFile, "package", verify);
    assert.deepEqual([found.accepted, found.records, found.refusal, found.fault], [true, 4, null, null]);
    assert.equal(String(found), `${goodFile}: ok 4 ${head}`);
  }
  assert.equal((await auditFile(pathToFileURL(goodFile), "package")).accepted, true);
  assert.equal((await auditFile(new Blob([good]), "package")).accepted, true);
  assert.equal((await auditBytes("x", Buffer.from(good), "package")).accepted, true);
});

test("lines as the tool reads them", async () => {
  const [first, ...others] = good.split("\n");
  const texts = {
    "carriage returns": good.replaceAll("\n", "\r\n"),
    comments: `# a log\n${first}\n#\n# x\n${others.join("\n")}# the end`,
    "a blank last line": `${good}\n`,
    "a blank last line that ends in a carriage return": `${good}\r\n`,
    "a blank last line before comments": `${good}\n# the end\n`,
    "no last line feed": good.slice(0, -1),
    "a last carriage return alone": `${good.slice(0, -1)}\r`,
    capitals: good.toUpperCase(),
  };
  for (const [name, text] of Object.entries(texts)) {
    assert.equal((await auditBytes(name, Buffer.from(text), "package")).head, head, name);
  }
  assert.equal(envelopesOf(Buffer.from("")).length, 0);
  assert.deepEqual(envelopesOf(Buffer.from("\n\n00\n\n")).map((it) => it.length), [0, 0, 1]);
  const blank = await auditBytes("x", Buffer.from(`${good}\n\n`), "package");
  assert.equal(
    String(blank.refusal).replace(/:.*;/, ":..;"),
    "refused 4 Contents.MissingTime:..; the line is blank: only the last line of a file may be",
  );
});

test("what is wrong with a file is said", async () => {
  mkdirSync(`${folder}/folder`);
  symlinkSync("nowhere", `${folder}/link`);
  const program = readFileSync(process.execPath).subarray(0, 100_000);
  const words = {
    [`${folder}/none`]: [Missing, "there is no such file"],
    [`${folder}/link`]: [Missing, "there is no such file"],
    [`${folder}/folder`]: [Unreadable, "it can't be read: it is a folder"],
    [`${goodFile}/x`]: [Unreadable, /^it can't be read: ENOTDIR/],
    [file("empty", "")]: [Empty, "empty"],
    [file("comments", "# x\n\n")]: [Empty, "empty"],
    [file("odd", `${good}abc\n`)]: [BadLine, "bad line 4"],
    [file("letters", "# x\nzz\n")]: [BadLine, "bad line 0"],
    [file("space", `${good.split("\n")[0]} \n`)]: [BadLine, "bad line 0"],
    [file("marked", `\ufeff${good}`)]: [BadLine, "bad line 0: the file begins with a byte order mark"],
    [file("utf-16", Buffer.from(`\ufeff${good}`, "utf16le"))]: [
      BadLine,
      "bad line 0: the file is no plain text: it is UTF-16",
    ],
    [file("zeros", Buffer.alloc(5000))]: [BadLine, "bad line 0: the file is no plain text"],
    [file("program", program)]: [BadLine, "bad line 0: the file is no plain text"],
    [file("page", "<!doctype html>\n<title>404</title>\n")]: [BadLine, "bad line 0"],
  };
  for (const [path, [Fault, wanted]] of Object.entries(words)) {
    const found = await auditFile(path, "package");
    assert.ok(found.fault instanceof Fault, `${path}: ${found}`);
    assert.deepEqual([found.accepted, found.records, found.head], [false, 0, null]);
    if (typeof wanted === "string") assert.equal(found.fault.message, wanted);
    else assert.match(found.fault.message, wanted);
    assert.equal(String(found), `${path}: ${found.fault.message}`);
  }
  assert.equal((await auditFile(`${folder}/empty`, "package", null, { allowEmpty: true })).accepted, true);
  if (process.getuid() !== 0) {
    chmodSync(file("closed", good), 0);
    assert.equal(
      String((await auditFile(`${folder}/closed`, "package")).fault),
      "it can't be read: it is closed to the reader",
    );
  }
  const bad = await auditBytes("x", Buffer.from("# x\n00\nz\n"), "package");
  assert.deepEqual([bad.fault.line, bad.fault.number], [1, 3]);
  assert.equal((await auditFile("a\0b", "package")).fault.name, "Unreadable");
  await assert.rejects(() => auditFile(goodFile, "packages"), RangeError);
});

test("a log of the other kind", async () => {
  const log = await operatorLog(alice);
  const text = textOf([log.record(0).envelope]);
  const found = await auditBytes("x", Buffer.from(text), "package");
  assert.match(String(found), /^x: refused 0 [\w.]+: .*; it is a record of an operator log: is the kind right\?$/);
  const other = await auditBytes("x", Buffer.from(good), "operator");
  assert.match(String(other), /; it is a record of a package's log: is the kind right\?$/);
  assert.doesNotMatch(String(await auditBytes("x", Buffer.from(textOf([made[1]])), "package")), /kind/);
  assert.equal((await auditBytes("x", Buffer.from(text), "operator")).accepted, true);
});

test("a refused record, and keys of other algorithms", async () => {
  const lines = good.split("\n");
  const forged = [lines[0], lines[2], ...lines.slice(1)].join("\n");
  const found = await auditBytes("x\n\x1b", Buffer.from(forged), "package");
  assert.deepEqual([found.records, found.refusal.place, found.refusal.name], [1, 1, "RecordHashDoesNotMatch"]);
  assert.match(String(found), /^x\\u\{a\}\\u\{1b\}: refused 1 RecordHashDoesNotMatch: /);
  const text = textOf([await toy.envelope("alice")]);
  assert.equal((await auditBytes("x", Buffer.from(text), "package")).refusal.name, "UnknownAlgorithm");
  assert.equal((await auditBytes("x", Buffer.from(text), "package", toy.verify)).accepted, true);
  await assert.rejects(
    () => auditBytes("x", Buffer.from(text), "package", () => { throw new Error("no answer"); }),
    /no answer/,
  );
});

test("a log that is more than there is memory for", async () => {
  const library = await Library.load({ maximum: 1_600_000 });
  const many = textOf(await envelopes(1200, alice, bob));
  const found = await auditBytes("x", Buffer.from(many), "package", null, { library });
  assert.equal(String(found), "x: it can't be read: there is no memory for it");
  // What it took is given back.
  assert.equal((await auditFile(goodFile, "package", null, { library })).accepted, true);
});

test("a trap is no verdict on a log, and the next one is judged by another library", async () => {
  const library = await Library.load({ source: standIn() });
  const verdict = await auditBytes("x", Buffer.from(good), "package", undefined, { library });
  assert.deepEqual([verdict.accepted, verdict.refusal, verdict.fault instanceof Unreadable], [false, null, true]);
  assert.match(String(verdict), /^x: it can't be read: the library trapped, and its logs are closed: RuntimeError/);
  assert.equal(library.isGivenUp, true);
  const found = await auditMany([goodFile, goodFile, goodFile], "package", { workers: 1, source: standIn() });
  for (const it of found) {
    assert.equal(it.accepted, false);
    assert.match(String(it.fault), /^it can't be read: the library trapped, and its logs are closed: RuntimeError/);
  }
});

test("threads verify by what they are told", async () => {
  const log = file("toy.hex", textOf([await toy.envelope("alice")]));
  const [byLibrary] = await auditMany([log], "package", { workers: 1, verifier: "library" });
  const [byEngine] = await auditMany([log], "package", { workers: 1, verifier: "web-crypto" });
  assert.equal(byLibrary.refusal.name, "UnknownAlgorithm");
  assert.notEqual(byEngine.refusal.name, "UnknownAlgorithm");
});

test("many logs by threads, in the order of the files", async () => {
  const bad = file("bad.hex", `${good}zz\n`);
  const forged = file("forged.hex", good.split("\n").reverse().slice(1).join("\n"));
  const files = [];
  for (let turn = 0; turn < 30; turn++) {
    files.push(goodFile, bad, pathToFileURL(goodFile), forged, `${folder}/none`, new Blob([good]));
  }
  for (const verifier of ["library", "web-crypto"]) {
    const found = await auditMany(files, "package", { workers: 3, verifier });
    const alone = await Promise.all(files.map((it) => auditFile(it, "package")));
    assert.deepEqual(found.map(String), alone.map(String));
    assert.deepEqual(found.map((it) => it.fault?.name), alone.map((it) => it.fault?.name));
    assert.deepEqual(found.map((it) => it.accepted), alone.map((it) => it.accepted));
    assert.ok(found.every((it) => it.fault === null || it.fault instanceof Error));
  }
  assert.deepEqual(await auditMany([], "package"), []);
  await assert.rejects(() => auditMany(files, "package", { verifier: "none" }), RangeError);
  await assert.rejects(() => auditMany(files, "packages"), RangeError);
  assert.equal((await auditMany([`${folder}/empty`], "package", { allowEmpty: true }))[0].accepted, true);
});

test("a thread's library may have so much memory, and a thread that ends is another one's", async () => {
  const many = file("many.hex", textOf(await envelopes(1200, alice, bob)));
  const found = await auditMany([many, goodFile, many], "package", { workers: 1, maximum: 1_600_000 });
  assert.deepEqual(
    found.map((it) => it.fault?.message),
    ["it can't be read: there is no memory for it", undefined, "it can't be read: there is no memory for it"],
  );
  // What can't be handed to a thread at all is no verdict of the others.
  const odd = { toString: () => "x" };
  const [first, second] = await auditMany([odd, goodFile], "package", { workers: 1 });
  assert.deepEqual([first.accepted, second.accepted], [false, true]);
});

test("the examples of the repository", async () => {
  const found = await auditFile(at("examples/p256/package.hex"), "package");
  assert.equal(found.head, "sha256:8e61d029a02873b9b456d2514699183aaffa8885b04995d59c519f281c8bd848");
  assert.ok(ROOT);
});

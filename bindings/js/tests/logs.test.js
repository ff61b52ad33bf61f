// What each call of a log gives, and what it throws.
import assert from "node:assert/strict";
import { test } from "node:test";
import {
  BadArgument,
  Kind,
  Library,
  Log,
  NoEnvelope,
  NotOpen,
  OperatorLog,
  PackageLog,
  Refused,
  UnknownAlgorithm,
  checkpoints,
  kindOf,
  libraryVersion,
  logOf,
  p256,
  printable,
  recordId,
  records,
} from "weoldrin";
import { START, envelopes, keys, operatorLog, record, release } from "./published.js";
import * as toy from "./toy.js";

const [alice, bob] = await keys();
const made = await envelopes(4, alice, bob);

async function packageLog(count = 4) {
  const log = await PackageLog.open();
  for (const it of made.slice(0, count)) await log.append(it);
  return log;
}

test("records, releases and keys", async () => {
  const log = await packageLog();
  assert.equal(log.length, 4);
  assert.deepEqual(log.last(), { timestamp: START, version: 1, count: 4 });
  assert.equal((await PackageLog.open()).last(), null);
  assert.equal(log.kind, Kind.PACKAGE);
  assert.equal(log.head(), await recordId("package", made[3]));
  assert.deepEqual(
    [...log.records()].map((it) => Buffer.from(it.envelope).toString("hex")),
    made.map((it) => Buffer.from(it).toString("hex")),
  );
  assert.equal(log.record(4), null);
  assert.equal(log.record(2n ** 64n), null);
  assert.equal(log.record(3).id, log.head());
  for (const it of [-1, 1.5, NaN, "0", -1n]) assert.throws(() => log.record(it), RangeError);
  const latest = log.latest(">=1");
  assert.deepEqual(latest, {
    version: "1.3.0",
    recordId: log.head(),
    by: records.keyId(bob.publicKey),
    timestamp: START,
    content: records.sha256Text(Buffer.from("1.3.0")),
    yanked: false,
    yankedBy: null,
    yankedTimestamp: null,
  });
  assert.deepEqual([...log.releases()].map((it) => it.version), ["1.1.0", "1.2.0", "1.3.0"]);
  assert.equal(log.latest("^2"), null);
  assert.equal(log.release("1.9.0"), null);
  const [aliceId, bobId] = [alice, bob].map((it) => records.keyId(it.publicKey));
  assert.deepEqual(
    [log.permissions(aliceId), log.permissions(bobId), log.permissions("x")],
    [["release", "yank"], ["release"], null],
  );
  assert.deepEqual(
    [log.holds(bobId, "release"), log.holds(bobId, "yank"), log.holds("x", "yank")],
    [true, false, false],
  );
  assert.deepEqual([log.publicKey(bobId), log.publicKey("x")], [bob.publicKey, null]);
  assert.deepEqual(log.chain(bobId, "release"), [{ record: 0, entry: 0 }, { record: 0, entry: 1 }]);
  assert.equal(log.chain(bobId, "yank"), null);
  log.close();
});

test("a yanked release, and times before 1970", async () => {
  const log = await PackageLog.open();
  const entries = [records.init(alice.publicKey), records.release("1.0.0", records.sha256Text(Buffer.from("")))];
  await log.append(await record(log, alice, entries, -1n));
  await log.append(await record(log, alice, [records.yank("1.0.0")], 5n));
  const found = log.release("1.0.0");
  assert.deepEqual([found.timestamp, found.yankedTimestamp, found.content, found.yanked], [-1n, 5n, null, true]);
  assert.equal(found.yankedBy, records.keyId(alice.publicKey));
  assert.equal(log.latest("*"), null);
  assert.throws(() => log.toJson(), (error) => error instanceof BadArgument && error.name === "TimeBeforeEpoch");
  log.close();
});

test("namespaces, also of names that begin with a mark of the byte order", async () => {
  const log = await operatorLog(alice, "\ufeffregistry \u0000\u202e");
  assert.deepEqual(log.namespaceState("own"), { importedFrom: null });
  assert.deepEqual(log.namespaceState("other"), { importedFrom: "\ufeffregistry \u0000\u202e" });
  assert.equal(log.namespaceState("none"), null);
  assert.throws(() => log.namespaceState("\ud800"), (error) => error.name === "NotUtf8");
  log.close();
});

test("a record is asked for and answered", async () => {
  const log = await PackageLog.open();
  const question = log.ask(made[0]);
  assert.equal(question.key, alice.publicKey);
  assert.equal(await p256.verify(question), true);
  assert.equal(log.head(), null);
  for (const it of [1, "yes", null, undefined, Promise.resolve(true), {}]) {
    assert.throws(() => log.appendAnswered(made[0], question, it), TypeError);
  }
  assert.throws(() => log.appendAnswered(made[0], question, false), (error) => error.name === "SignatureError");
  assert.throws(() => log.appendAnswered(made[0], { ...question, message: Buffer.from("other") }, true), Refused);
  assert.throws(
    () => log.appendAnswered(made[0], { ...question, key: "no key" }, true),
    (error) => error.name === "BadQuestion",
  );
  log.appendAnswered(made[0], question, true);
  assert.equal(log.length, 1);
  await log.append(made[1], p256.verifyByWebCrypto);
  await log.append(made[2], (it) => p256.verify(it));
  await assert.rejects(() => log.append(made[3], () => 1), TypeError);
  await assert.rejects(() => log.append(made[3], () => false), Refused);
  await assert.rejects(() => log.append(made[3], () => Promise.reject(new Error("no answer"))), /no answer/);
  assert.equal(log.length, 3);
  log.appendSigned(made[3]);
  assert.throws(() => log.appendSigned(made[3]), Refused);
  assert.throws(
    () => log.appendSigned(Buffer.from("0b", "hex")),
    (error) => error instanceof NoEnvelope && error.sentence !== "",
  );
  log.close();
});

test("bytes that change while a verifier runs are not what is appended", async () => {
  const log = await PackageLog.open();
  const envelope = Uint8Array.from(made[0]);
  await log.append(envelope, (question) => {
    envelope.fill(0);
    return p256.verify(question);
  });
  assert.equal(log.head(), await recordId("package", made[0]));
  log.close();
});

test("keys of other algorithms are the caller's", async () => {
  const log = await PackageLog.open();
  const envelope = await toy.envelope("alice");
  assert.throws(() => log.appendSigned(envelope), UnknownAlgorithm);
  await assert.rejects(() => log.append(envelope), /appendAnswered/);
  await log.append(envelope, toy.verify);
  assert.equal(log.length, 1);
  log.close();
});

test("two logs compare", async () => {
  const library = await Library.load();
  const [left, right] = [new PackageLog(library), new PackageLog(library)];
  assert.deepEqual(left.compare(right), { relation: "same", left: 0, right: 0 });
  assert.deepEqual(left.compare(left), { relation: "same", left: 0, right: 0 });
  for (const it of made) await right.append(it);
  assert.deepEqual(left.compare(right), { relation: "left-is-prefix", left: 0, right: 0 });
  await left.append(made[0]);
  assert.deepEqual(right.compare(left), { relation: "right-is-prefix", left: 1, right: 1 });
  await left.append(await release(left, bob, "9.0.0"));
  assert.deepEqual(left.compare(right), { relation: "fork", left: 1, right: 1 });
  const operators = new OperatorLog(library);
  assert.throws(() => left.compare(operators), (error) => error.name === "WrongKind");
  const elsewhere = await packageLog();
  assert.throws(() => left.compare(elsewhere), (error) => error.name === "OtherLibrary");
  assert.throws(() => left.compare({}), TypeError);
  for (const it of [left, right, operators, elsewhere]) it.close();
});

test("a log goes on from its saved state", async () => {
  const log = await packageLog(3);
  const resumed = await PackageLog.fromJson(log.toJson());
  assert.deepEqual(resumed.last(), { ...log.last(), count: null });
  const counted = await PackageLog.fromJson(log.toJson(), { count: 3 });
  assert.deepEqual(counted.last(), log.last());
  await assert.rejects(() => counted.append(made[0]), Refused);
  assert.equal(counted.last().count, 3);
  await counted.append(made[3]);
  assert.equal(counted.last().count, 4);
  assert.throws(() => counted.length, BadArgument);
  counted.close();
  const greatest = await PackageLog.fromJson(log.toJson(), { count: 2n ** 64n - 1n });
  await greatest.append(made[3]);
  assert.equal(greatest.last().count, null);
  greatest.close();
  assert.equal(resumed.toJson(), log.toJson());
  await resumed.append(made[3]);
  await log.append(made[3]);
  assert.equal(resumed.head(), log.head());
  assert.deepEqual(resumed.latest("*"), log.latest("*"));
  const calls = [
    () => resumed.length,
    () => resumed.record(0),
    () => resumed.chain(records.keyId(bob.publicKey), "release"),
    () => resumed.compare(log),
    () => resumed.compare(resumed),
  ];
  for (const call of calls) {
    assert.throws(call, (error) => error instanceof BadArgument && error.name === "Resumed");
  }
  const wrong = {
    "": "NotJson",
    "[]": "WrongType",
    "\ud800": "NotJson",
    '{"head":{}}': "Missing",
    '{"algorithm":"sha256"}': "Incoherent",
  };
  for (const [text, name] of Object.entries(wrong)) {
    await assert.rejects(
      () => PackageLog.fromJson(text),
      (error) => error instanceof BadArgument && error.name === name,
      text,
    );
  }
  await assert.rejects(() => PackageLog.fromJson(7), TypeError);
  for (const count of [-1, 1.5, "3", 2n ** 64n]) {
    await assert.rejects(
      () => PackageLog.fromJson(log.toJson(), { count }),
      (error) => error instanceof BadArgument && error.name === "OutOfRange",
    );
  }
  log.close();
  resumed.close();
});

test("what is misused is said", async () => {
  const log = await packageLog();
  const operators = await operatorLog(alice);
  const named = (name) => (error) => error instanceof BadArgument && error.name === name && error.sentence !== "";
  assert.throws(() => log.latest(">=x"), named("BadRequirement"));
  assert.throws(() => log.release("x"), named("BadVersion"));
  assert.throws(() => log.holds("x", "commit"), named("UnknownPermission"));
  assert.throws(() => log.chain("x", "commit"), named("UnknownPermission"));
  assert.throws(() => operators.holds("x", "yank"), named("UnknownPermission"));
  const calls = [
    () => log.latest(1),
    () => log.publicKey(null),
    () => log.appendSigned("0a"),
    () => log.ask(null),
    () => log.holds("x"),
  ];
  for (const call of calls) {
    assert.throws(call, TypeError);
  }
  assert.throws(() => new Log(log.library), TypeError);
  assert.throws(() => new PackageLog(), /await PackageLog.open\(\)/);
  for (const kind of ["", "packages", 0, null]) {
    assert.throws(() => kindOf(kind), RangeError);
    assert.throws(() => logOf(kind), RangeError);
  }
  await assert.rejects(() => recordId("package", Buffer.from("ff", "hex")), NoEnvelope);
  log.close();
  operators.close();
});

test("bytes are those of a view, from its place on", async () => {
  const log = await PackageLog.open();
  const [first, second, third] = made;
  const odd = new Uint8Array(first.length + 7);
  odd.set(first, 3);
  log.appendSigned(new DataView(odd.buffer, 3, first.length));
  const shared = new SharedArrayBuffer(second.length);
  new Uint8Array(shared).set(second);
  log.appendSigned(shared);
  log.appendSigned(third.buffer.slice(third.byteOffset, third.byteOffset + third.length));
  assert.equal(log.length, 3);
  assert.deepEqual(Buffer.from(log.record(0).envelope), Buffer.from(first));
});

test("what a log gave stays, whatever it gives then", async () => {
  const log = await PackageLog.open();
  for (const it of made) log.appendSigned(it);
  const found = [...log.records()];
  const copies = found.map((it) => [Buffer.from(it.envelope), it.id]);
  log.toJson();
  assert.deepEqual(found.map((it) => [Buffer.from(it.envelope), it.id]), copies);
});

test("places and lengths are whole numbers of 64 bits", async () => {
  const library = await Library.load();
  const id = records.sha256Text(new Uint8Array());
  for (const wrong of [-1, -1n, 0.5, NaN, Infinity, 2 ** 53, 2 ** 60, 2n ** 64n, "1", null, undefined]) {
    const calls = [
      () => library.verifyInclusion(id, id, wrong, 1, id, ""),
      () => library.verifyInclusion(id, id, 0, wrong, id, ""),
      () => library.verifyConsistency(wrong, id, 1, id, ""),
      () => library.verifyConsistency(1, id, wrong, id, ""),
      () => checkpoints.toJson({ logRoot: id, logLength: wrong, mapRoot: id }),
    ];
    for (const call of calls) {
      assert.throws(call, (error) => error instanceof BadArgument && error.name === "OutOfRange", String(wrong));
    }
  }
  for (const well of [1, 1n, 2 ** 53 - 1, 2n ** 53n, 2n ** 64n - 1n]) {
    assert.equal(library.verifyInclusion(id, id, 0, well, id, ""), false);
  }
});

test("a checkpoint's JSON is nested at most 127 deep", () => {
  const root = records.sha256Text(new Uint8Array());
  const nested = (depth) =>
    `{"logLength":1,"logRoot":"${root}","mapRoot":"${root}","more":${"[".repeat(depth - 1)}${"]".repeat(depth - 1)}}`;
  assert.equal(checkpoints.parse(nested(127)).logLength, 1n);
  assert.throws(() => checkpoints.parse(nested(128)), (error) => error.name === "NotJson");
});

test("a closed log says so", async () => {
  const log = await packageLog(1);
  log.close();
  log.close();
  const calls = [
    () => log.head(),
    () => log.length,
    () => log.ask(made[1]),
    () => log.appendSigned(made[1]),
    () => log.record(0),
    () => log.chain("x", "release"),
    () => log.toJson(),
    () => log.latest("*"),
  ];
  for (const call of calls) assert.throws(call, NotOpen);
  const open = await packageLog(1);
  assert.throws(() => open.compare(log), NotOpen);
  if (Symbol.dispose) open[Symbol.dispose]();
  assert.throws(() => open.head(), Symbol.dispose ? NotOpen : undefined);
});

test("the version is the package's", async () => {
  const { default: about } = await import("weoldrin/package.json", { with: { type: "json" } });
  assert.equal(await libraryVersion(), about.version);
});

test("errors are printed on one line", async () => {
  const log = await packageLog(1);
  const contents = records.contents(log.head(), START, [records.release("1.0.0", records.sha256Text(Buffer.from("")))]);
  const stranger = "x\x1b[2J\r\nok 9 \x9b\u202e\u2028\ufeff\ufdd0\\é";
  const envelope = records.envelope(contents, stranger, p256.textOf(new Uint8Array(8)));
  assert.throws(() => log.appendSigned(envelope), (error) => {
    assert.ok(error.sentence.includes(stranger));
    assert.ok(String(error).includes("x\\u{1b}[2J\\u{d}\\u{a}ok 9 \\u{9b}\\u{202e}\\u{2028}\\u{feff}\\u{fdd0}\\\\é"));
    assert.doesNotMatch(String(error) + error.stack.split("\n    at ")[0], /[\x00-\x09\x0b-\x1f\x7f-\x9f\u2028\u202e]/);
    return true;
  });
  assert.throws(() => kindOf("\x1b"), (error) => error.message.includes("\\u{1b}"));
  log.close();
});

test("each number of a character is printed by the rule", () => {
  const marks = [0x61c, 0x200e, 0x200f, 0x202a, 0x202b, 0x202c, 0x202d, 0x202e, 0x2066, 0x2067, 0x2068, 0x2069, 0xfeff];
  const isHidden = (it) =>
    it < 0x20 || (it >= 0x7f && it < 0xa0) || it === 0x2028 || it === 0x2029 || marks.includes(it) ||
    (it >= 0xfdd0 && it <= 0xfdef) || (it & 0xfffe) === 0xfffe || (it >= 0xd800 && it <= 0xdfff);
  for (let number = 0; number <= 0x10ffff; number++) {
    const sign = String.fromCodePoint(number);
    const wanted = number === 0x5c ? "\\\\" : isHidden(number) ? `\\u{${number.toString(16)}}` : sign;
    if (printable(sign) !== wanted) assert.fail(`U+${number.toString(16)} is printed as ${printable(sign)}`);
  }
  assert.equal(printable("a\x1b[2J\nb\u202ec\\u{a}\x9b"), "a\\u{1b}[2J\\u{a}b\\u{202e}c\\\\u{a}\\u{9b}");
  assert.equal(printable("Größe 東京 🔑 e\u0301"), "Größe 東京 🔑 e\u0301");
});

test("texts that are none are written into no record", () => {
  const calls = [
    () => records.init("\ud800"),
    () => records.release("1.0.0\udfff", "x"),
    () => records.keyId("\ud800"),
    () => records.importNamespace("x", "\ud800"),
    () => records.grant("package", "k", ["commit"]),
    () => records.grant("package", "k", "\x1b"),
  ];
  for (const call of calls) {
    assert.throws(call, RangeError);
  }
  assert.throws(() => records.contents(null, 5, []), TypeError);
  assert.equal(
    Buffer.from(records.contents(null, -1n, [], 0)).toString("hex"),
    "1a1108ffffffffffffffffff0110ff93ebdc03",
  );
});


// The ids of logs by their names, the leaves of a registry's log, what is signed of its checkpoints, by the bytes of
// docs/FORMATS.md, and whether keys sign them that an operator log lets sign.
import assert from "node:assert/strict";
import { createHash, generateKeyPairSync, sign as signed } from "node:crypto";
import { test } from "node:test";
import {
  BadArgument,
  Kind,
  Library,
  NotOpen,
  OperatorLog,
  OutOfMemory,
  UnknownAlgorithm,
  checkpointMessage,
  checkpoints,
  leaf,
  logId,
  p256,
  records,
} from "weoldrin";
import { record } from "./published.js";
import * as toy from "./toy.js";
import { hashInLog } from "./trees.js";

const hash = (text) => records.sha256Text(Buffer.from(text));
const [LOG_ROOT, MAP_ROOT, OTHER_ROOT] = ["log", "map", "other"].map(hash);
// A time that 32 bits do not hold.
const IT = { logRoot: LOG_ROOT, logLength: 8n, mapRoot: MAP_ROOT, timestamp: 2n ** 32n + 5n };
// Those that differ from it in a field, or have two exchanged.
const OTHERS = [
  { logRoot: OTHER_ROOT },
  { logLength: 9n },
  { logLength: 8n + 2n ** 32n },
  { mapRoot: OTHER_ROOT },
  { timestamp: 5n },
  { timestamp: 2n ** 32n + 6n },
  { logRoot: MAP_ROOT, mapRoot: LOG_ROOT },
  { logLength: IT.timestamp, timestamp: IT.logLength },
].map((it) => ({ ...IT, ...it }));
const NO_HASHES = [
  "",
  "sha256",
  "sha256:",
  "sha256:00",
  `sha512:${"0".repeat(64)}`,
  `sha256:${"g".repeat(64)}`,
  `${LOG_ROOT} `,
  "0".repeat(64),
  "é",
  "\ud800",
  "\0",
  "a".repeat(1 << 20),
];
// What can't be read as a signature.
const UNREADABLE = ["", "ecdsa-p256", ":AAAA", "ecdsa-p256:!", "ecdsa-p256:AAA", "ecdsa-p256:AAAA\n", "é", "\ud800"];
const NO_TEXTS = [null, undefined, 7, Buffer.from("text"), ["x"]];
const NO_NUMBERS = [-1n, -1, 2n ** 64n, 2n ** 64n + 8n, 8n - 2n ** 64n, 1.5, NaN, 2 ** 53, "8", null, undefined];
// The id of the log of `example:math` stands in docs/TRUST.md. The other one is what
// `printf WARG-OPERATOR-LOG-ID-V0 | sha256sum` prints.
const MATH = "sha256:af6410747c0a7692c8dc4cf6f83cbb8da9041875f1ad9a5a2fca0eef51379ec1";
const OPERATORS = "sha256:0db9178aabc877b42f03a038bf453ee53f08e3c8c55fab916043428078596bfb";

const library = await Library.load();
const upper = (text) => text.slice(0, 7) + text.slice(7).toUpperCase();

/** A number in the prefix encoding, which is LEB128. */
function leb128(number) {
  const low = [];
  let rest = BigInt(number);
  for (; rest >= 128n; rest >>= 7n) low.push(Number(rest & 127n) + 128);
  return Buffer.from([...low, Number(rest)]);
}

const prefixed = (text) => Buffer.concat([leb128(Buffer.byteLength(text)), Buffer.from(text)]);

/** What is signed of a checkpoint, by definition. */
const messageOf = ({ logRoot, logLength, mapRoot, timestamp }) =>
  Buffer.concat([
    Buffer.from("WARG-CHECKPOINT-SIGNATURE-V0:WARG-TIMESTAMPED-CHECKPOINT-V0"),
    leb128(logLength),
    prefixed(logRoot),
    prefixed(mapRoot),
    leb128(timestamp),
  ]);

/** A bad argument of a name, which has a sentence too. */
const bad = (name) => (error) => error instanceof BadArgument && error.name === name && error.sentence !== "";

test("ids of logs", async () => {
  assert.deepEqual([await logId("package", "example:math"), library.logId(Kind.PACKAGE, "example:math")], [MATH, MATH]);
  for (const name of ["a:b", "example-two:math-lib2", ...[125, 126, 9000].map((it) => `${"a".repeat(it)}:b`)]) {
    const data = Buffer.concat([Buffer.from("WARG-PACKAGE-LOG-ID-V0:WARG-PACKAGE-ID-V0"), prefixed(name)]);
    const wanted = `sha256:${createHash("sha256").update(data).digest("hex")}`;
    assert.equal(library.logId("package", name), wanted);
    assert.equal(await logId("package", name, { library }), wanted);
  }
  assert.deepEqual([await logId("operator"), await logId("operator", ""), library.logId("operator")], [
    OPERATORS,
    OPERATORS,
    OPERATORS,
  ]);
});

test("names that no log has", () => {
  const names = [
    ...["", ":", "a:", ":b", "math", "Example:math", "example:Math", "a:b:c", "a::b", "a-:b", "-a:b", "a--b:c"],
    ...["1a:b", "a:1b", "a_b:c", "a:b ", " a:b", "a:b\0", "\0", "a:é", "\u{1f511}", "a:\ud800", "\udfff"],
    "a".repeat(1 << 20),
  ];
  for (const name of names) assert.throws(() => library.logId("package", name), bad("BadName"), name.slice(0, 9));
  assert.throws(() => library.logId("package"), bad("BadName"));
  for (const name of ["example:math", "a", " ", "\0", "\ud800", "a".repeat(1 << 20)]) {
    assert.throws(() => library.logId("operator", name), bad("BadName"), name.slice(0, 9));
  }
  for (const kind of ["", "packages", "PACKAGE", 0, 1, true, null, undefined]) {
    assert.throws(() => library.logId(kind, "example:math"), RangeError);
  }
  for (const name of NO_TEXTS.filter((it) => it !== undefined)) {
    assert.throws(() => library.logId("package", name), TypeError);
  }
});

test("leaves", async () => {
  const [log, other] = [hash("log 2"), hash("record 5")];
  const wanted = Buffer.concat([Buffer.from("WARG-LOG-LEAF-V0"), prefixed(log), prefixed(other)]);
  assert.deepEqual(Buffer.from(await leaf(log, other)), wanted);
  assert.deepEqual(Buffer.from(library.leaf(upper(log), upper(other))), wanted);
  assert.notDeepEqual(Buffer.from(library.leaf(other, log)), wanted);
  const hashed = createHash("sha256").update("\0").update(library.leaf(log, other)).digest();
  assert.deepEqual(hashed, hashInLog({ logId: log, recordId: other }));
  for (const wrong of NO_HASHES) {
    assert.throws(() => library.leaf(wrong, log), bad("BadText"));
    assert.throws(() => library.leaf(log, wrong), bad("BadText"));
  }
  for (const wrong of NO_TEXTS) {
    assert.throws(() => library.leaf(wrong, log), TypeError);
    assert.throws(() => library.leaf(log, wrong), TypeError);
  }
});

test("what is signed of a checkpoint", async () => {
  const numbers = [0n, 1n, 127n, 128n, 16383n, 16384n, 2n ** 32n - 1n, 2n ** 32n, 2n ** 63n, 2n ** 64n - 1n];
  for (const logLength of numbers) {
    for (const timestamp of numbers) {
      const it = { ...IT, logLength, timestamp };
      assert.deepEqual(Buffer.from(library.checkpointMessage(it)), messageOf(it));
      assert.deepEqual(Buffer.from(checkpoints.message(checkpoints.contents(it))), messageOf(it));
    }
  }
  assert.deepEqual(Buffer.from(await checkpointMessage({ ...IT, logLength: 8 }, { library })), messageOf(IT));
  const other = { ...IT, logRoot: upper(LOG_ROOT), mapRoot: upper(MAP_ROOT) };
  assert.deepEqual(Buffer.from(await checkpointMessage(other)), messageOf(IT));
  const all = new Set([IT, ...OTHERS].map((it) => Buffer.from(library.checkpointMessage(it)).toString("hex")));
  assert.equal(all.size, OTHERS.length + 1);
});

/** A call refuses checkpoints that are of no form. */
function refuses(call) {
  for (const wrong of NO_HASHES) {
    for (const it of [{ logRoot: wrong }, { mapRoot: wrong }]) {
      assert.throws(() => call({ ...IT, ...it }), bad("BadText"));
    }
  }
  for (const wrong of NO_NUMBERS) {
    for (const it of [{ logLength: wrong }, { timestamp: wrong }]) {
      assert.throws(() => call({ ...IT, ...it }), bad("OutOfRange"));
    }
  }
  for (const wrong of NO_TEXTS) {
    for (const it of [{ logRoot: wrong }, { mapRoot: wrong }]) assert.throws(() => call({ ...IT, ...it }), TypeError);
  }
}

const JSON_TEXT = `{"logLength":8,"logRoot":"${LOG_ROOT}","mapRoot":"${MAP_ROOT}","timestamp":4294967301}`;
const SIGNED_TEXT = `{"contents":${JSON_TEXT},"keyId":"an id","signature":"a text"}`;
const PUBLISHED = { checkpoint: IT, keyId: "an id", signature: "a text" };

test("the JSON of a signed checkpoint", () => {
  assert.equal(checkpoints.signedToJson(PUBLISHED), SIGNED_TEXT);
  assert.deepEqual(checkpoints.parseSigned(SIGNED_TEXT), PUBLISHED);
  const checkpoint = { ...IT, logLength: 2n ** 64n - 1n };
  const odd = { checkpoint, keyId: "\x1b", signature: "é\u2028\ud800" };
  assert.deepEqual(checkpoints.parseSigned(checkpoints.signedToJson(odd)), odd);
  // Other members are passed over, and of two of a name the last one counts.
  const more = SIGNED_TEXT.replace('{"logL', '{"__proto__":{"logRoot":7},"logLength":"x","logL');
  assert.deepEqual(checkpoints.parseSigned(` ${more.replace("{", '{"logRoot":7,')}\n`), PUBLISHED);
  const read = checkpoints.parseSigned(SIGNED_TEXT);
  assert.ok(Object.isFrozen(read) && Object.isFrozen(read.checkpoint));
});

test("faults of the JSON of a signed checkpoint", () => {
  const [whole, inner] = [JSON.parse(SIGNED_TEXT), JSON.parse(JSON_TEXT)];
  const faulty = (name, text) => assert.throws(() => checkpoints.parseSigned(text), bad(name), text.slice(0, 300));
  for (const member of ["logRoot", "logLength", "mapRoot", "timestamp"]) {
    const { [member]: _, ...others } = inner;
    const lacking = JSON.stringify({ ...whole, contents: others });
    faulty("Missing", lacking);
    for (const value of ["null", "[]", "{}", "true", "1.0", "1e2", "-0", "-1", String(2n ** 64n)]) {
      faulty("WrongType", lacking.replace('{"contents":{', `{"contents":{"${member}":${value},`));
    }
  }
  for (const member of ["contents", "keyId", "signature"]) {
    const { [member]: _, ...others } = whole;
    faulty("Missing", JSON.stringify(others));
    faulty("Missing", JSON.stringify({ ...others, more: whole[member] }));
    for (const value of [null, 7, [], [whole[member]], true]) {
      faulty("WrongType", JSON.stringify({ ...whole, [member]: value }));
    }
  }
  for (const text of ["null", "[]", "7", '"text"', "true", `[${SIGNED_TEXT}]`]) faulty("WrongType", text);
  faulty("Missing", JSON_TEXT);
  for (const wrong of NO_HASHES.slice(0, 9)) faulty("BadText", SIGNED_TEXT.replace(LOG_ROOT, wrong));
  const deep = "[".repeat(100_000);
  const others = ["", "{", SIGNED_TEXT.slice(0, -1), `${SIGNED_TEXT},`, SIGNED_TEXT.replace(":8,", ":NaN,"), deep];
  for (const text of others) faulty("NotJson", text);
});

// Keys that may sign checkpoints, and others: one may do other things, of one it was taken, and one no record names.
const [first, second, third, defines, revoked, unknown] = await Promise.all(
  Array.from({ length: 6 }, () => p256.SigningKey.generate()),
);
const idOf = ({ publicKey }) => records.keyId(publicKey);
const grant = (key, permissions) => records.grant("operator", key, permissions);

async function append(log, signer, ...entries) {
  await log.append(await record(log, signer, entries));
}

/** An operator log of these keys. */
async function operators() {
  const log = new OperatorLog(library);
  await append(
    log,
    first,
    records.init(first.publicKey),
    grant(second.publicKey, ["defineNamespace", "commit"]),
    grant(third.publicKey, "commit"),
    grant(defines.publicKey, ["defineNamespace", "importNamespace"]),
    grant(revoked.publicKey, ["commit", "importNamespace"]),
    grant(toy.keyOf("alice"), "commit"),
    grant(toy.keyOf("bob"), "importNamespace"),
  );
  await append(log, third, records.revoke("operator", idOf(revoked), "commit"));
  return log;
}

/** What is asked of a log and of the one that goes on from its saved state, which answer alike. */
async function asking(log) {
  const resumed = await OperatorLog.fromJson(log.toJson(), { library });
  const asked = (...words) => {
    const [answer, again] = [log, resumed].map((it) => it.verifyCheckpoint(...words));
    assert.strictEqual(again, answer);
    return answer;
  };
  const throws = (wanted, ...words) => {
    for (const it of [log, resumed]) assert.throws(() => it.verifyCheckpoint(...words), wanted);
  };
  return { asked, throws };
}

test("keys that may sign", async () => {
  const { asked } = await asking(await operators());
  const signers = [first, second, third];
  for (const signer of signers) {
    const [keyId, signature] = [idOf(signer), await signer.sign(messageOf(IT))];
    assert.strictEqual(asked(IT, keyId, signature), true);
    assert.strictEqual(asked({ ...IT, logLength: 8, logRoot: upper(LOG_ROOT) }, keyId, signature), true);
    for (const it of OTHERS) {
      assert.strictEqual(asked(it, keyId, signature), false);
      const another = await signer.sign(messageOf(it));
      assert.deepEqual([asked(IT, keyId, another), asked(it, keyId, another)], [false, true]);
    }
    for (const it of signers) assert.equal(asked(IT, keyId, await it.sign(messageOf(IT))), it === signer);
  }
});

test("of keys that may not sign the signature is not looked at, nor its text read", async () => {
  const { asked, throws } = await asking(await operators());
  for (const signer of [defines, revoked, unknown]) {
    for (const it of [await signer.sign(messageOf(IT)), ...UNREADABLE]) {
      assert.strictEqual(asked(IT, idOf(signer), it), false);
    }
  }
  const [keyId, signature] = [idOf(first), await first.sign(messageOf(IT))];
  for (const it of ["", "sha256:00", "é", keyId.slice(0, -1), keyId.toUpperCase(), first.publicKey, "\0"]) {
    assert.equal(asked(IT, it, signature), false);
  }
  for (const it of ["\ud800", "sha256:\udfff"]) throws(bad("BadText"), IT, it, signature);
  assert.equal(new OperatorLog(library).verifyCheckpoint(IT, keyId, signature), false);
});

test("signatures of other texts", async () => {
  const { asked, throws } = await asking(await operators());
  const [keyId, message] = [idOf(first), messageOf(IT)];
  const signature = await first.sign(message);
  for (const it of ["", message.subarray(0, -1), Buffer.concat([message, Buffer.of(0)]), message.subarray(29)]) {
    assert.equal(asked(IT, keyId, await first.sign(Buffer.from(it))), false);
  }
  const bytes = Buffer.from(signature.split(":")[1], "base64");
  const longer = p256.textOf(Buffer.concat([bytes, Buffer.of(0)]));
  bytes[bytes.length - 1] ^= 1;
  const texts = [p256.textOf(bytes), longer, "ecdsa-p256:", "ecdsa-p256:AA==", "ecdsa-p384:AAAA", toy.keyOf("alice")];
  for (const it of texts) assert.equal(asked(IT, keyId, it), false, it);
  for (const it of UNREADABLE) throws(bad("BadText"), IT, keyId, it);
});

test("keys of other algorithms", async () => {
  const log = await operators();
  const { asked, throws } = await asking(log);
  const signature = toy.sign("alice", messageOf(IT));
  const [alice, bob] = ["alice", "bob"].map((it) => records.keyId(toy.keyOf(it)));
  for (const it of [signature, ...UNREADABLE]) {
    throws((error) => error instanceof UnknownAlgorithm && error.sentence !== "", IT, alice, it);
    assert.equal(asked(IT, bob, it), false);
  }
  // Whoever verifies elsewhere is asked what the library gives.
  const published = { checkpoint: IT, keyId: alice, signature };
  assert.equal(await checkpoints.isSigned(log, published), false);
  assert.equal(await checkpoints.isSigned(log, published, toy.verify), true);
  const by = { ...published, keyId: bob, signature: toy.sign("bob", messageOf(IT)) };
  assert.equal(await checkpoints.isSigned(log, by, toy.verify), false);
});

test("who may sign changes with the log", async () => {
  const log = await operators();
  const signatures = [await second.sign(messageOf(IT)), await defines.sign(messageOf(IT))];
  const answers = async () => {
    const { asked } = await asking(log);
    return [asked(IT, idOf(second), signatures[0]), asked(IT, idOf(defines), signatures[1])];
  };
  const before = [log.head(), log.toJson()];
  assert.deepEqual(await answers(), [true, false]);
  assert.deepEqual([log.head(), log.toJson()], before);
  await append(log, first, records.revoke("operator", idOf(second), "commit"), grant(defines.publicKey, "commit"));
  assert.deepEqual(await answers(), [false, true]);
});

test("checkpoints of no form, and words of other types", async () => {
  const log = await operators();
  const signature = await first.sign(messageOf(IT));
  refuses((it) => library.checkpointMessage(it));
  for (const keyId of [idOf(first), "another", records.keyId(toy.keyOf("alice"))]) {
    refuses((it) => log.verifyCheckpoint(it, keyId, signature));
  }
  for (const wrong of NO_TEXTS) {
    assert.throws(() => log.verifyCheckpoint(IT, wrong, signature), TypeError);
    assert.throws(() => log.verifyCheckpoint(IT, idOf(first), wrong), TypeError);
  }
  for (const wrong of [null, undefined]) assert.throws(() => log.verifyCheckpoint(wrong, "", ""), TypeError);
  const published = { checkpoint: { ...IT, logRoot: "sha256:00" }, keyId: idOf(first), signature };
  assert.equal(await checkpoints.isSigned(log, published), false);
  assert.equal(await checkpoints.isSigned(log, published, () => true), false);
  const beyond = { ...published, checkpoint: { ...IT, timestamp: -1n } };
  for (const verify of [undefined, () => true]) {
    await assert.rejects(checkpoints.isSigned(log, beyond, verify), bad("OutOfRange"));
  }
  log.close();
  for (const it of [IT, { ...IT, logRoot: "" }]) assert.throws(() => log.verifyCheckpoint(it, "", ""), NotOpen);
});

test("keys and signatures that another program made", async () => {
  const log = await operators();
  const { publicKey, privateKey } = generateKeyPairSync("ec", { namedCurve: "P-256" });
  const { x, y } = publicKey.export({ format: "jwk" });
  const at = Buffer.from(y, "base64url");
  const key = p256.textOf(Buffer.concat([Buffer.of(2 + (at.at(-1) & 1)), Buffer.from(x, "base64url")]));
  await append(log, first, grant(key, "commit"));
  const signature = p256.textOf(signed("sha256", messageOf(IT), privateKey));
  assert.equal(log.verifyCheckpoint(IT, records.keyId(key), signature), true);
  for (const it of OTHERS) assert.equal(log.verifyCheckpoint(it, records.keyId(key), signature), false);
});

test("where there is no memory it is said", async () => {
  const small = await Library.load({ maximum: 4_000_000 });
  const log = new OperatorLog(small);
  const long = "a".repeat(5_000_000);
  const calls = [
    () => small.logId("package", long),
    () => small.leaf(LOG_ROOT, long),
    () => small.checkpointMessage({ ...IT, logRoot: long }),
    () => log.verifyCheckpoint(IT, long, ""),
  ];
  for (const call of calls) assert.throws(call, OutOfMemory);
  assert.equal(small.logId("package", "example:math"), MATH);
  assert.equal(log.verifyCheckpoint(IT, "a", ""), false);
});

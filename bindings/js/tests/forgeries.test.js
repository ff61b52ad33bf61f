// A log of 50 records by keys of P-256, each of which is forged in every way and refused, and then taken.
import assert from "node:assert/strict";
import { test } from "node:test";
import { PackageLog, Refused, p256, records } from "weoldrin";
import { START } from "./published.js";

const changed = (signature) => {
  const bytes = Buffer.from(signature.split(":")[1], "base64");
  bytes[bytes.length - 1] ^= 1;
  return p256.textOf(bytes);
};

test("each forgery is refused, and leaves the log as it was", async () => {
  const [alice, bob, mallory] = await Promise.all([1, 2, 3].map(() => p256.SigningKey.generate()));
  const log = await PackageLog.open();
  const state = () => [log.head(), log.length, log.toJson()];

  async function refused(name, append) {
    const before = state();
    await assert.rejects(append, (error) => error instanceof Refused && error.name === name);
    assert.deepEqual(state(), before);
  }
  async function forged(envelope) {
    for (const verify of [undefined, p256.verify, p256.verifyByWebCrypto]) {
      await refused("SignatureError", () => log.append(envelope, verify));
    }
  }
  const contentsOf = (place, mark = "") => {
    const first = [records.init(alice.publicKey), records.grant("package", bob.publicKey, ["release"])];
    const entries = place ? [records.release(`1.${place}.0`, records.sha256Text(Buffer.from(mark)))] : first;
    return records.contents(log.head(), START + BigInt(mark.length), entries);
  };

  for (let place = 0; place < 50; place++) {
    const signer = place ? bob : alice;
    const [contents, other] = [contentsOf(place), contentsOf(place, "other")];
    const [message, keyId] = [records.message("package", contents), records.keyId(signer.publicKey)];
    const signature = await signer.sign(message);
    const envelope = records.envelope(contents, keyId, signature);
    // By another key, with another message, with another signature.
    await forged(records.envelope(contents, keyId, await mallory.sign(message)));
    await forged(records.envelope(other, keyId, signature));
    await forged(records.envelope(contents, keyId, changed(signature)));
    // By the answer to another question: of another record, and of one that was not asked.
    const signed = await signer.sign(records.message("package", other));
    const asked = log.ask(records.envelope(other, keyId, signed));
    await refused("SignatureError", async () => log.appendAnswered(envelope, asked, true));
    const question = log.ask(envelope);
    const wrong = { ...question, signature: changed(signature) };
    await refused("SignatureError", async () => log.appendAnswered(envelope, wrong, true));
    log.appendAnswered(envelope, question, await p256.verifyByWebCrypto(question));
    // The same once more is no next record.
    await refused(place ? "RecordHashDoesNotMatch" : "NoPreviousHashAfterInit", () => log.append(envelope));
  }
  assert.equal(log.length, 50);
  log.close();
});

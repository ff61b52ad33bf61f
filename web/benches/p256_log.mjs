// p256_log.mjs COUNT: prints a lawful package log of so many records of three entries, signed by two keys of P-256 in
// turn, as tools/make_log prints one by the toy scheme.
import { argv, stdout } from "node:process";
import { p256, records } from "../../bindings/js/src/index.js";
import { hexOf } from "../../bindings/js/src/bytes.js";

const count = Number(argv[2]);
const [alice, bob] = [await p256.SigningKey.generate(), await p256.SigningKey.generate()];
const TEXT = new TextEncoder();
const release = (version) => records.release(version, records.sha256Text(TEXT.encode(version)));

let prev = null;
for (let place = 0; place < count; place++) {
  const entries =
    place === 0
      ? [records.init(alice.publicKey), records.grant("package", bob.publicKey, "release yank"), release("0.0.0")]
      : [release(`${place}.0.0`), release(`${place}.1.0`), records.yank(`${place}.0.0`)];
  const signer = place % 2 ? bob : alice;
  const contents = records.contents(prev, 1_700_000_000_000_000_000n + BigInt(place) * 60_000_000_000n, entries);
  const envelope = await records.signed("package", contents, signer.publicKey, (message) => signer.sign(message));
  prev = records.sha256Text(Uint8Array.from([...TEXT.encode("WARG-PACKAGE-LOG-RECORD-V0:"), ...contents]));
  if (!stdout.write(`${hexOf(envelope)}\n`)) await new Promise((done) => stdout.once("drain", done));
}

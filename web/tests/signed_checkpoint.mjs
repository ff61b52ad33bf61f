// Prints what signed_checkpoint.json has: a registry's operator log, a checkpoint that its key has signed, one that it
// has not, and what is signed by keys that may not, or by none. The keys are new ones, and are not kept.
import { stdout } from "node:process";
import { OperatorLog, checkpoints, p256, records } from "../../bindings/js/src/index.js";
import { hexOf } from "../../bindings/js/src/bytes.js";

const [key, defines, unknown] = await Promise.all([1, 2, 3].map(() => p256.SigningKey.generate()));
const log = await OperatorLog.open();
const entries = [
  records.init(key.publicKey),
  records.grant("operator", defines.publicKey, "defineNamespace"),
  records.grant("operator", "word:AAAA", "commit"),
];
const contents = records.contents(null, records.now(), entries);
const envelope = await records.signed("operator", contents, key.publicKey, (message) => key.sign(message));
log.appendSigned(envelope);
const hash = records.sha256Text(new Uint8Array());
const checkpoint = { logRoot: hash, logLength: 18_446_744_073_709_551_615n, mapRoot: hash, timestamp: 1_700_000_000n };
const message = log.library.checkpointMessage(checkpoint);
const published = (publicKey, signature, what = checkpoint) =>
  checkpoints.signedToJson({ checkpoint: what, keyId: records.keyId(publicKey), signature });
const signature = await key.sign(message);
const made = {
  log: `${hexOf(envelope)}\n`,
  published: published(key.publicKey, signature),
  other: published(key.publicKey, signature, { ...checkpoint, logLength: checkpoint.logLength - 1n }),
  unpermitted: published(defines.publicKey, await defines.sign(message)),
  unknown: published(unknown.publicKey, await unknown.sign(message)),
  algorithm: published("word:AAAA", "word:AAAA"),
};
stdout.write(`${JSON.stringify(made, null, 2)}\n`);

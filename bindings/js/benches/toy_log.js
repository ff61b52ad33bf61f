// Times the appending of a package log whose records are signed by the toy scheme: `node toy_log.js RUNS < LOG`, a
// line an envelope.
//
// Prints the least time of the runs in nanoseconds a record: asking, verifying, appending.
import { createHash } from "node:crypto";
import { readFileSync } from "node:fs";
import { argv, hrtime } from "node:process";
import { PackageLog, envelopesOf } from "weoldrin";

const textOf = (bytes) => `toy:${bytes.toString("base64")}`;

function verify({ key, message, signature }) {
  const digest = createHash("sha256").update(Buffer.from(key.slice(4), "base64")).update(message).digest();
  return signature === textOf(digest);
}

const envelopes = envelopesOf(readFileSync(0));

async function run() {
  const times = { ask: 0n, verify: 0n, append: 0n };
  const log = await PackageLog.open();
  for (const envelope of envelopes) {
    const start = hrtime.bigint();
    const question = log.ask(envelope);
    const asked = hrtime.bigint();
    const belongs = verify(question);
    const verified = hrtime.bigint();
    log.appendAnswered(envelope, question, belongs);
    times.append += hrtime.bigint() - verified;
    times.verify += verified - asked;
    times.ask += asked - start;
  }
  log.close();
  return times;
}

let least;
for (let left = Number(argv[2]); left > 0; left--) {
  const times = await run();
  if (!least || times.ask + times.append < least.ask + least.append) least = times;
}
const words = Object.entries(least).map(([name, time]) => `${name} ${time / BigInt(envelopes.length)}`);
console.log(words.join(" "));

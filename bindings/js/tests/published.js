// Logs that are signed by keys of P-256, for the tests.
import { OperatorLog, PackageLog, p256, records } from "weoldrin";

export const START = 1_700_000_000_000_000_000n;

/** The envelope of a record that goes on from a log. */
export function record(log, signer, entries, timestamp = START, version = 1) {
  const contents = records.contents(log.head(), timestamp, entries, version);
  return records.signed(log.kind, contents, signer.publicKey, (message) => signer.sign(message));
}

/** The first record of a log of a package: alice begins it, and lets bob release. */
export function beginning(log, alice, bob) {
  return record(log, alice, [records.init(alice.publicKey), records.grant("package", bob.publicKey, ["release"])]);
}

/** A release by bob. */
export function release(log, bob, version) {
  return record(log, bob, [records.release(version, records.sha256Text(Buffer.from(version)))]);
}

export const keys = async () => [await p256.SigningKey.generate(), await p256.SigningKey.generate()];

/** The envelopes of a log of a package, of so many records. */
export async function envelopes(count, alice, bob) {
  const [made, log] = [[], await PackageLog.open()];
  for (let place = 0; place < count; place++) {
    made.push(place ? await release(log, bob, `1.${place}.0`) : await beginning(log, alice, bob));
    await log.append(made.at(-1));
  }
  log.close();
  return made;
}

/** The text of a log's file. */
export const textOf = (made) => made.map((it) => `${Buffer.from(it).toString("hex")}\n`).join("");

/** A log of operators: alice begins it, defines the namespace `own` and imports the namespace `other`. */
export async function operatorLog(alice, registry = "registry.example.com") {
  const log = await OperatorLog.open();
  const entries = [
    records.init(alice.publicKey),
    records.defineNamespace("own"),
    records.importNamespace("other", registry),
  ];
  await log.append(await record(log, alice, entries));
  return log;
}

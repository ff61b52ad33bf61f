// Publishes a package: `node publish.js COUNT` prints the envelopes of so many records, a line each in hex.
//
// They are signed by new keys of P-256, and checked before they are printed.
import { argv, stdout } from "node:process";
import { PackageLog, p256, records } from "weoldrin";

/** Signs a record that goes on from the log, and appends it. */
async function publish(log, signer, entries) {
  const contents = records.contents(log.head(), records.now(), entries);
  const envelope = await records.signed(log.kind, contents, signer.publicKey, (message) => signer.sign(message));
  await log.append(envelope);
  stdout.write(`${Buffer.from(envelope).toString("hex")}\n`);
}

const count = Number(argv[2]);
const [alice, bob] = [await p256.SigningKey.generate(), await p256.SigningKey.generate()];
const log = await PackageLog.open();
// Alice begins the log and lets bob release, who then releases a version a record.
await publish(log, alice, [records.init(alice.publicKey), records.grant(log.kind, bob.publicKey, ["release"])]);
for (let minor = 1; minor < count; minor++) {
  const content = records.sha256Text(new TextEncoder().encode(`content ${minor}`));
  await publish(log, bob, [records.release(`1.${minor}.0`, content)]);
}
log.close();

// The toy signature scheme, which serves tests alone: a key is the bytes of a name, a signature the digest of these and
// the message.
import { createHash } from "node:crypto";
import { records } from "weoldrin";

const textOf = (bytes) => `toy:${Buffer.from(bytes).toString("base64")}`;

/** The text of the public key of a name. */
export const keyOf = (name) => textOf(Buffer.from(name));

/** The text of a name's signature of a message. */
export const sign = (name, message) => textOf(createHash("sha256").update(name).update(message).digest());

/** Whether the signature belongs to the message under the key. */
export function verify({ key, message, signature }) {
  const [algorithm, digits] = key.split(":");
  const bytes = Buffer.from(digits, "base64");
  return algorithm === "toy" && signature === textOf(createHash("sha256").update(bytes).update(message).digest());
}

/** The envelope of a record that begins a log of a package by the key of a name. */
export const envelope = (name) => {
  const contents = records.contents(null, 1_700_000_000_000_000_000n, [records.init(keyOf(name))]);
  return records.signed("package", contents, keyOf(name), (message) => sign(name, message));
};

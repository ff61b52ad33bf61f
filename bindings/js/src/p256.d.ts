/** ECDSA over the curve P-256 with SHA-256. The library verifies, and so does WebCrypto, which signs too. */
import type { Bytes, OfLibrary, Question } from "./index.js";

export const ALGORITHM: "ecdsa-p256";
/** The text of a key or of a signature. */
export function textOf(data: Bytes): string;
/** The 65 bytes of a point that SEC 1 writes in 33 or 65; null where the bytes are none of these. */
export function wholePoint(bytes: Uint8Array): Uint8Array | null;
/** r and s, of 32 bytes each, of the DER of a signature; null where the bytes are none. */
export function rawOfDer(bytes: Uint8Array): Uint8Array | null;
/** The DER of a signature of two numbers of 32 bytes each. */
export function derOfRaw(raw: Uint8Array): Uint8Array;
/** Whether the signature belongs to the message under the key, by the library. */
export function verify(question: Question, options?: OfLibrary): Promise<boolean>;
/** The same by WebCrypto. Throws `NoWebCrypto`. */
export function verifyByWebCrypto(question: Question): Promise<boolean>;

/** A private key, which WebCrypto keeps. */
export class SigningKey {
  private constructor();
  static generate(): Promise<SigningKey>;
  /** A key that was saved as PEM (PKCS 8), without a password. Throws `RangeError` of what is none of P-256. */
  static fromPem(pem: string): Promise<SigningKey>;
  /** The text of the public key. */
  readonly publicKey: string;
  /** The key as PEM (PKCS 8), without a password. */
  toPem(): Promise<string>;
  /** The text of a signature of the message. */
  sign(message: Bytes): Promise<string>;
}

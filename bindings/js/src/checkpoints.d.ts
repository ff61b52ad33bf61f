/** A registry's checkpoints: what they say, what a key signs of one, and whether a key that may has signed it. */
import type { Bytes, OperatorLog, Verify } from "./index.js";

export interface Checkpoint {
  readonly logRoot: string;
  readonly logLength: bigint;
  readonly mapRoot: string;
}

/** A checkpoint with its time, in seconds since 1970. */
export interface TimestampedCheckpoint extends Checkpoint {
  readonly timestamp: bigint;
}

/** A checkpoint that was signed by the key of an id. */
export interface Published {
  readonly checkpoint: TimestampedCheckpoint;
  readonly keyId: string;
  readonly signature: string;
}

/** The checkpoint that a text of JSON says. Throws `BadArgument` by the name of the first fault. */
export function parse(text: string): Checkpoint;
/** The checkpoint with its time that a text of JSON says. Throws `BadArgument`. */
export function parseTimestamped(text: string): TimestampedCheckpoint;
/**
 * The signed checkpoint that a text of JSON says. Whether its parts belong together, `verifyCheckpoint` of an
 * `OperatorLog` says. Throws `BadArgument`.
 */
export function parseSigned(text: string): Published;
/** The text of JSON of a signed checkpoint. */
export function signedToJson(published: Published): string;
/** The text of JSON of a checkpoint, with its time or without one. */
export function toJson(checkpoint: Checkpoint | TimestampedCheckpoint): string;
/** The bytes of a checkpoint, with its time or without one. */
export function contents(checkpoint: Checkpoint | TimestampedCheckpoint): Uint8Array;
/** What is signed of the bytes of a checkpoint with its time. */
export function message(bytes: Bytes): Uint8Array;
/** Whether a key that may sign checkpoints by an operator log has signed this one. */
export function isSigned(operators: OperatorLog, published: Published, verify?: Verify | null): Promise<boolean>;

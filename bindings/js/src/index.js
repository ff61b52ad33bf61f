/**
 * Checks the logs of a Warg package registry by a proved library, which verifies signatures of ECDSA P-256.
 * @module
 */
export * as checkpoints from "./checkpoints.js";
export * as p256 from "./p256.js";
export * as records from "./records.js";
export { Refusal, Verdict, appendAll, auditBytes, auditFile } from "./auditing.js";
export { isSupported } from "./engine.js";
export {
  BadArgument,
  NoEnvelope,
  NoLibrary,
  NoWebCrypto,
  NotOpen,
  OutOfMemory,
  Refused,
  Trapped,
  UnknownAlgorithm,
  WeoldrinError,
} from "./errors.js";
export { BadLine, Empty, Fault, Missing, Unreadable } from "./faults.js";
export { Library } from "./library.js";
export { envelopesOf } from "./lines.js";
export { Log, OperatorLog, PackageLog, logOf } from "./logs.js";
export { auditMany } from "./many.js";
export { printable } from "./printing.js";
export {
  checkpointMessage,
  compareBeginnings,
  compareCheckpoints,
  compareHeads,
  compareLeaves,
  leaf,
  libraryVersion,
  logId,
  recordId,
  verify,
  verifyAbsence,
  verifyConsistency,
  verifyInclusion,
  verifyPresence,
} from "./proofs.js";
export { RegistryTrees } from "./registry.js";
export {
  BeginningComparison,
  CheckpointComparison,
  HeadComparison,
  Kind,
  LeafComparison,
  Relation,
  kindOf,
} from "./values.js";

/**
 * What needs no log, by a library or the one that is shared: see `Library` for what each says and throws.
 * @module
 */
import { sharedLibrary } from "./library.js";

/** @param {string} name */
const byLibrary =
  (name, count) =>
  async (...passed) => {
    const { library } = passed[count] ?? {};
    return (library ?? (await sharedLibrary()))[name](...passed.slice(0, count));
  };

/** The library's version. */
export const libraryVersion = byLibrary("version", 0);

/** The id of an envelope's record. */
export const recordId = byLibrary("recordId", 2);

/** The id of the log of a kind and a name. */
export const logId = byLibrary("logId", 2);

/** The leaf of a log's record in the registry's log: the bytes that are hashed, with a zero before them. */
export const leaf = byLibrary("leaf", 2);

/** The message that a key of the registry signs of a checkpoint with its time. */
export const checkpointMessage = byLibrary("checkpointMessage", 1);

/** How a checkpoint of a registry compares with an older one. */
export const compareCheckpoints = byLibrary("compareCheckpoints", 3);

/** How the leaves compare that are shown at one place of a registry's log under two checkpoints. */
export const compareLeaves = byLibrary("compareLeaves", 3);

/** How two answers about the last record of one log compare that are shown under one root of a registry's map. */
export const compareHeads = byLibrary("compareHeads", 4);

/** How two checkpoints of a registry compare that the log of a newer one is shown to begin with. */
export const compareBeginnings = byLibrary("compareBeginnings", 3);

/** Whether the signature belongs to the message under the key, by their texts. */
export const verify = byLibrary("verify", 3);

/** Whether the leaf of a log's record stands at a place of the registry's log. */
export const verifyInclusion = byLibrary("verifyInclusion", 6);

/** Whether the registry's log begins with an older one. */
export const verifyConsistency = byLibrary("verifyConsistency", 5);

/** Whether the registry's map says that a log's last record is this one. */
export const verifyPresence = byLibrary("verifyPresence", 4);

/** Whether the registry's map says nothing of a log. */
export const verifyAbsence = byLibrary("verifyAbsence", 3);

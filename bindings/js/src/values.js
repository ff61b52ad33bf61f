/**
 * What logs are asked and say: questions, records, releases, comparisons, and the kinds of logs. Their types stand in
 * `index.d.ts`.
 * @module
 */
import { printable } from "./printing.js";

/** The kinds of logs, which are their words. */
export const Kind = Object.freeze({ PACKAGE: "package", OPERATOR: "operator" });

/** How two logs stand to each other, by the contents of their records. */
export const Relation = Object.freeze({
  SAME: "same",
  LEFT_IS_PREFIX: "left-is-prefix",
  RIGHT_IS_PREFIX: "right-is-prefix",
  FORK: "fork",
  COLLISION: "collision",
});

/** The relations by the library's numbers. */
export const RELATIONS = Object.values(Relation);

/** How one checkpoint of a registry compares with an older one. */
export const CheckpointComparison = Object.freeze({
  SAME: "same",
  GOES_ON: "goes-on",
  GOES_BACK: "goes-back",
  FORK: "fork",
  NOT_SHOWN: "not-shown",
});

/** How the leaves compare that are shown at one place of a registry's log under two checkpoints. */
export const LeafComparison = Object.freeze({ SAME: "same", FORK: "fork", NOT_SHOWN: "not-shown" });

/** How two answers about the last record of one log compare that are shown under one root of a registry's map. */
export const HeadComparison = Object.freeze({
  SAME: "same",
  TWO: "two",
  ONE_AND_NONE: "one-and-none",
  NOT_SHOWN: "not-shown",
});

/** How two checkpoints of a registry compare that the log of a newer one is shown to begin with. */
export const BeginningComparison = Object.freeze({
  SAME: "same",
  FORK: "fork",
  COLLISION: "collision",
  TWO_LENGTHS: "two-lengths",
  NOT_SHOWN: "not-shown",
});

/** The comparisons by the library's numbers. */
export const CHECKPOINT_COMPARISONS = Object.values(CheckpointComparison);
export const LEAF_COMPARISONS = Object.values(LeafComparison);
export const HEAD_COMPARISONS = Object.values(HeadComparison);
export const BEGINNING_COMPARISONS = Object.values(BeginningComparison);

/** The kinds by the library's numbers. */
export const KINDS = Object.values(Kind);

/**
 * A kind of logs, which is "package" or "operator". Throws `RangeError` for anything else.
 * @param {unknown} kind
 * @returns {import("./index.js").Kind}
 */
export function kindOf(kind) {
  if (kind === Kind.PACKAGE || kind === Kind.OPERATOR) return kind;
  throw new RangeError(`a log is of "package" or "operator", and not of ${printable(String(kind))}`);
}

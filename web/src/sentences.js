/**
 * Why a log is refused, and what is wrong with a file, in plain words. What the library says stands beside them.
 * @module
 */
import { many, number, quoted } from "./dom.js";

/** What each refusal means, and what a publisher can do. */
const REFUSALS = {
  FirstEntryIsNotInit: [
    "A log begins with an entry that names its first key. This one begins with something else.",
    "Begin the log with a record whose first entry is an init.",
  ],
  InitialRecordDoesNotInit: [
    "A log begins with an entry that names its first key. Its first record has no entry at all.",
    "Begin the log with a record whose first entry is an init.",
  ],
  KeyIDNotRecognized: [
    "The record is signed by a key that no record before has let into this log.",
    "Sign with a key that the log knows, or have such a key grant something to yours first.",
  ],
  InitialEntryAfterBeginning: [
    "The record begins the log once more. A log begins once; further keys come in by grants.",
    "Leave the init out.",
  ],
  IncorrectHashAlgorithm: ["The record names the one before it by another hash than the log's.", ""],
  UnauthorizedAction: [
    "The signer is known, but was not allowed to do this: it did not hold the permission when it signed.",
    "Have a key that holds the permission sign, or ask its owner for a grant.",
  ],
  PermissionNotFoundToRevoke: [
    "The record takes a permission from a key that does not hold it.",
    "Leave out what the key does not hold, and name each permission once.",
  ],
  SignatureError: [
    "The signature does not belong to this record: it was made with another key, or the record was changed since.",
    "Sign with the key that the record names. If you did not publish it, do not trust this copy of the log.",
  ],
  RecordHashDoesNotMatch: [
    "The record goes on from another record than the one that stands before it here.",
    "Another record came first, or one was left out: fetch the log anew, name its last record and sign again.",
  ],
  PreviousHashOnFirstRecord: [
    "The first record says that another one stands before it. The beginning of the log may be missing.",
    "Fetch the whole log; a first record names none before it.",
  ],
  NoPreviousHashAfterInit: [
    "The record does not say which one it goes on from, as a first record would. It may stand here twice.",
    "Name the log's last record as the one before.",
  ],
  ProtocolVersionNotAllowed: [
    "The record is of a version of the protocol that is not known here, or lower than that of the record before it.",
    "Write version 1 into the record.",
  ],
  TimestampLowerThanPrevious: [
    "The record says an earlier time than the record before it. Times of a log never go back.",
    "Set the clock, and sign again.",
  ],
  EmptyGrant: [
    "The record grants nothing to a key, which version 1 of the protocol does not allow.",
    "Name a permission.",
  ],
  ReleaseOfReleased: [
    "The record releases a version that was released before. A version is released once, also if it was yanked.",
    "Choose another version.",
  ],
  YankOfUnreleased: ["The record yanks a version that was never released.", "Look for the version among the releases."],
  YankOfYanked: ["The record yanks a version that is yanked already.", "Nothing is left to do."],
  InvalidNamespace: [
    "The record names a namespace by a text that can be none.",
    "Choose words of lower-case letters and digits, a letter first, with dashes between.",
  ],
  NamespaceAlreadyDefined: ["The record names a namespace that is taken.", "Choose another name: each is taken once."],
};

const UNKNOWN_SCHEME = [
  "The signature is of a scheme that this page does not verify. It verifies ECDSA P-256.",
  "Verify such logs with a program that has a verifier of that scheme.",
];
const TOY = [
  "The record is signed by the toy scheme, for trying things out. Anyone can forge such signatures, so they are " +
    "taken only where that is chosen.",
  "",
];
const UNREAD = [
  ["ProtobufEnvelope.", "The line is hex, but its bytes are no signed record: it is damaged, or it is something else."],
  ["Contents.", "The line is a signed record, but what it says can't be read: it is damaged, or of another kind."],
  ["Signature.", "The text of the record's signature can't be read."],
];

const KINDS = { package: "a package", operator: "operators" };
const OTHER = { package: "operator", operator: "package" };

/** What a log is of. */
export const kindText = (kind) => KINDS[kind];

/** What a refusal means and what can be done, two sentences, of which the second may be empty. */
export function meaningOf({ name, cause, scheme }, kind) {
  if (cause === "blank") return ["The line is blank. Only the last line of a file may be.", "Remove the line."];
  if (cause === "kind") {
    const other = KINDS[OTHER[kind]];
    const sentence = `This is the log of ${other}, and it was asked for as the log of ${KINDS[kind]}.`;
    return [sentence, `Choose “${other}” above, and check it again.`];
  }
  if (name === "UnknownAlgorithm") return scheme === "toy" ? TOY : UNKNOWN_SCHEME;
  const unread = UNREAD.find(([begin]) => name.startsWith(begin));
  return REFUSALS[name] ?? [unread?.[1] ?? "The record breaks a rule of the protocol.", ""];
}

/** What is wrong with a file, by the fault that the thread told. */
const FAULTS = {
  Empty: () => "The file has no record in it. A download that failed leaves such a file.",
  BadLine: ({ number: line, cause }) =>
    cause
      ? `Line ${number(line)} is no record in hex: ${quoted(cause)}. A log is a file of text, with a record a line.`
      : `Line ${number(line)} is no record in hex. A log is a file of text, with a record a line.`,
  TooLarge: ({ size, most }) =>
    `The file has ${size ? many(size, "byte") : `more than ${many(most, "byte")}`}. This page reads files of at most ` +
    `${number(most)}, as the command does.`,
  LongCheckpoint: ({ size, most }) =>
    `The file begins as JSON does, and has ${many(size, "byte")}. A checkpoint has ${number(most)} at most.`,
  NotJson: () => "The file begins as JSON does, and is none: it is no log, and no checkpoint.",
  Missing: () =>
    "The file is JSON, and no checkpoint: that has logRoot, logLength and mapRoot, and where it is signed these and " +
    "timestamp stand in contents, beside keyId and signature.",
  WrongType: () => "The file is JSON, and no checkpoint: one of its members is of another type than it should be.",
  BadText: () => "The file is a checkpoint whose roots are no hashes: those are sha256: and 64 digits.",
  Folder: () => "This is a folder. Drop the files that are in it.",
  Unreadable: ({ isFolder, why }) =>
    isFolder
      ? "It can't be read: it is a folder, or it was moved or changed since it was chosen. Choose it again."
      : `The file can't be read: ${quoted(why)}.`,
  OutOfMemory: () => "There was no memory left to check it. Close other logs or pages, and check it again.",
  Trapped: () => "The library broke off in the midst of this log, so nothing is known of it. All logs were closed.",
  NotOpen: () => "The library broke off before, and this log was closed with it. Check it again.",
  NoLibrary: ({ sentence }) => quoted(sentence, 600),
  Address: ({ why }) =>
    `It can't be fetched: ${quoted(why)}. The server is away, or lets no pages of other places read it. Save the log ` +
    "as a file, and drop that here.",
  NoFiles: () => "Nothing that was dropped is a file. Drop the file of a log, or give its address above.",
};

/** A sentence that says what is wrong with a file. */
export function faultText(fault) {
  const sentence = FAULTS[fault.name];
  return sentence ? sentence(fault) : `It could not be checked: ${quoted(fault.sentence ?? fault.name)}.`;
}

/** How two logs stand to each other. */
export function relationText({ relation, lengths: [left, right], left: at }) {
  switch (relation) {
    case "same":
      return ["good", `The two logs are the same: ${many(left, "record")}.`];
    case "left-is-prefix":
      return ["good", `The right log goes on from the left one: it has ${many(right - left, "record")} more.`];
    case "right-is-prefix":
      return ["good", `The left log goes on from the right one: it has ${many(left - right, "record")} more.`];
    case "fork": {
      const common = at === 0 ? "no record in common" : `the first ${many(at, "record")} in common`;
      return [
        "bad",
        `The logs part: they have ${common}, and record ${number(at)} is another one in each. Two readers of this ` +
          "log were told two things.",
      ];
    }
    default:
      return ["bad", "Two records that differ have one id. That takes a collision of SHA-256."];
  }
}

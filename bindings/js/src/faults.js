/**
 * Why the audit of a file is no yes: what is wrong with the file, each by a name of its own. A fault is of its file
 * alone, and stands in the verdict.
 * @module
 */
import { printable } from "./printing.js";

/** Why the audit of a file is no yes. `message` is a sentence, as it is printed. */
export class Fault extends Error {
  /** @param {string} sentence */
  constructor(sentence) {
    super(printable(sentence));
    this.name = this.constructor.FAULT;
  }

  toString() {
    return this.message;
  }
}

/** There is no such file. */
export class Missing extends Fault {
  static FAULT = "Missing";

  constructor() {
    super("there is no such file");
  }
}

/**
 * The file could not be read: it is a folder, it is closed to the reader, a read failed, or it is more than there is
 * memory for; or what judges it broke off.
 */
export class Unreadable extends Fault {
  static FAULT = "Unreadable";

  /** @param {string} why */
  constructor(why) {
    super(`it can't be read: ${why}`);
    this.why = why;
  }
}

/**
 * A line is no even number of hex digits. `line` is its place among the lines that stand for records, from 0, and
 * `number` that among all lines of the file, from 1. `cause` is what is likely the matter, if that is known.
 */
export class BadLine extends Fault {
  static FAULT = "BadLine";

  /** @param {number} line @param {number} number @param {string} [cause] */
  constructor(line, number, cause = "") {
    super(`bad line ${line}${cause && `: ${cause}`}`);
    this.line = line;
    this.number = number;
    this.cause = cause;
  }
}

/** There is no record. A download that failed leaves such a file. */
export class Empty extends Fault {
  static FAULT = "Empty";

  constructor() {
    super("empty");
  }
}

/** The fault that another thread told by its name and its fields. */
export function faultOf({ name, why, line, number, cause }) {
  if (name === Missing.FAULT) return new Missing();
  if (name === BadLine.FAULT) return new BadLine(line, number, cause);
  return name === Empty.FAULT ? new Empty() : new Unreadable(why);
}

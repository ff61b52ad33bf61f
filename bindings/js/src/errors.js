/**
 * What a call is refused for. Whatever is thrown, the log is as it was.
 * @module
 */
import { printable } from "./printing.js";

/**
 * What a call is refused for. `name` and `sentence` are the library's own; `message` is the sentence as it can be
 * printed, so that `String(error)` is one line.
 *
 * A sentence quotes what strangers wrote, such as a key id, to the letter: print `message`.
 */
export class WeoldrinError extends Error {
  /** @param {string} text the name, a colon, a space and the sentence */
  constructor(text) {
    const at = text.indexOf(": ");
    const [name, sentence] = at < 0 ? [text, ""] : [text.slice(0, at), text.slice(at + 2)];
    super(printable(sentence));
    /** The library's name of it. */
    this.name = printable(name);
    /** What it says, to the letter. */
    this.sentence = sentence;
  }
}

/** The log was closed, or the trees of the registry. */
export class NotOpen extends WeoldrinError {
  constructor(text = "") {
    super(text || "NotOpen: the log was closed");
  }
}

/** There was no memory. The same call may be made again. */
export class OutOfMemory extends WeoldrinError {
  constructor(text = "") {
    super(text || "OutOfMemory: there was no memory");
  }
}

/** The bytes are no envelope of a record of the log's kind. */
export class NoEnvelope extends WeoldrinError {}

/** The record is unlawful, or its signature does not belong. */
export class Refused extends WeoldrinError {}

/** The key is of another algorithm than the library verifies. The sentence says what to do. */
export class UnknownAlgorithm extends WeoldrinError {
  constructor(text = "") {
    super(
      text ||
        "UnknownAlgorithm: the library verifies keys of ecdsa-p256 alone; verify the signature by other means, and " +
          "append a record by ask(envelope) and appendAnswered, or by append(envelope, verify)",
    );
  }
}

/** An argument is not of its form, or the log is none that has this call. The name and the sentence say which. */
export class BadArgument extends WeoldrinError {
  constructor(text = "") {
    super(text || "BadArgument: an argument is not of its form, or the log has no such call");
  }
}

/**
 * The library trapped: the engine's stack ended, or its code did what no proof lets it do. Whatever was made over that
 * library is closed, logs and trees. `cause` is what the engine says.
 */
export class Trapped extends WeoldrinError {
  /** @param {unknown} cause */
  constructor(cause) {
    super(`Trapped: the library trapped, and its logs are closed: ${cause}`);
    this.cause = cause;
  }
}

/** The library can't be had, or not in this engine. */
export class NoLibrary extends WeoldrinError {}

/** There is no WebCrypto, which a page has where it is served safely. */
export class NoWebCrypto extends WeoldrinError {
  constructor(text = "") {
    super(
      text ||
        "NoWebCrypto: there is no WebCrypto here; a page has it where it is served by HTTPS or from localhost, and " +
          "the library verifies without it: append(envelope)",
    );
  }
}

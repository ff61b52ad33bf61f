/**
 * What lives in the library's memory until it is closed or forgotten.
 * @module
 */
import { NotOpen } from "./errors.js";
import { Library, sharedLibrary } from "./library.js";

// Closes what is forgotten without being closed.
const forgotten = new FinalizationRegistry(({ library, at, close }) => library.closeHandle(at, close));

/** A log, or the trees of a registry. What is not closed is closed when it is forgotten. */
export class Held {
  #library;
  #calls;
  #handle;

  /**
   * Opens it over a library that was loaded. `calls` has the names of the calls that do so and that close it, the one
   * of the class, and what is said where it was closed; what else is passed to the first call are `words`.
   */
  constructor(library, calls, words = []) {
    if (!(library instanceof Library)) {
      throw new TypeError(`a library is wanted: use \`await ${calls.made}.open()\`, or hand in one that was loaded`);
    }
    this.#library = library;
    this.#calls = calls;
    this.#handle = library.newHandle();
    try {
      library.isDone(calls.open, library.status(calls.open, [this.#handle, ...words]));
    } catch (error) {
      library.closeHandle(this.#handle, calls.close);
      throw error;
    }
    forgotten.register(this, { library, at: this.#handle, close: calls.close }, this);
  }

  /** One that is empty, over a library, or the one that is shared. */
  static async open({ library } = {}) {
    return new this(library ?? (await sharedLibrary()));
  }

  /** The library that it is made over. */
  get library() {
    return this.#library;
  }

  /** Gives its memory back. Closing twice is harmless; any other call then throws `NotOpen`. */
  close() {
    if (this.#handle === undefined) return;
    forgotten.unregister(this);
    const handle = this.#handle;
    this.#handle = undefined;
    this.#library.closeHandle(handle, this.#calls.close);
  }

  /** For the package's own files: the handle that calls are passed. */
  get handle() {
    if (this.#handle === undefined) throw new NotOpen(this.#calls.closed);
    return this.#handle;
  }
}

if (Symbol.dispose) {
  Object.defineProperty(
    Held.prototype,
    Symbol.dispose,
    { value: Held.prototype.close, writable: true, configurable: true },
  );
}

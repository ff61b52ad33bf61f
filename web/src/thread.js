/**
 * The page's side of its thread: asks it questions, and hears answers.
 * @module
 */

// As scripts are text for the engine too, it is told here that one address alone may be a worker's.
const policy = globalThis.trustedTypes?.createPolicy("weoldrin", { createScriptURL: (address) => address });

/** What the thread could not do: its name, and what more it told. */
export class Fault extends Error {
  /** @param {{ name: string, sentence?: string }} told */
  constructor(told) {
    super(told.sentence ?? told.name);
    this.told = told;
  }
}

/** In a page that is one file: the text of its script, from which a thread can be begun as well. */
const ownScript = () => document.getElementById("weoldrin-script");

function begunWorker() {
  const script = ownScript();
  if (!script) {
    const address = new URL("worker.js", import.meta.url).href;
    return new Worker(policy ? policy.createScriptURL(address) : address, { type: "module" });
  }
  const address = URL.createObjectURL(new Blob([script.textContent], { type: "text/javascript" }));
  return new Worker(policy ? policy.createScriptURL(address) : address);
}

/** A part of the page: the library's module or an example. It lies in the page that is one file, or beside it. */
export async function part(name, path) {
  const inside = document.getElementById(`weoldrin-${name}`);
  if (inside) {
    const bytes = Uint8Array.from(atob(inside.textContent.trim()), (sign) => sign.charCodeAt(0));
    const stream = new Blob([bytes]).stream().pipeThrough(new DecompressionStream("gzip"));
    return new Response(stream).arrayBuffer();
  }
  const response = await fetch(new URL(path, document.baseURI), { credentials: "omit" });
  if (!response.ok) throw new Error(`the server answers ${response.status}`);
  return response.arrayBuffer();
}

export class Thread {
  #worker = begunWorker();
  #waiting = new Map();
  #at = 0;
  #ended = null;

  constructor() {
    this.#worker.onmessage = ({ data }) => this.#hear(data);
    this.#worker.onerror = (event) => {
      event.preventDefault();
      this.#end(event.message || "its script can't be had, or not read");
    };
  }

  /**
   * Asks a question: a word, and what belongs to it. `heard` gets how far a log is judged, or each step that holds.
   * @param {string} ask
   * @param {object} words
   * @param {(done: number | object, total?: number) => void} [heard]
   */
  ask(ask, words = {}, heard = () => {}, moved = []) {
    return new Promise((resolve, reject) => {
      if (this.#ended) return reject(this.#ended);
      const at = this.#at++;
      this.#waiting.set(at, { resolve, reject, heard });
      this.#worker.postMessage({ at, ask, ...words }, moved);
    });
  }

  #hear({ at, found, fault, done, total, step }) {
    const waiting = this.#waiting.get(at);
    if (step !== undefined) return waiting.heard(step);
    if (total !== undefined) return waiting.heard(done, total);
    this.#waiting.delete(at);
    if (fault) waiting.reject(new Fault(fault));
    else waiting.resolve(found);
  }

  #end(why) {
    this.#ended = new Fault({ name: "Broken", sentence: `the page's thread ended: ${why}` });
    for (const { reject } of this.#waiting.values()) reject(this.#ended);
    this.#waiting.clear();
  }
}

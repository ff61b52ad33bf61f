/**
 * A thread of its own for a script of this package, by the workers of the engine: those of Node, or those of the web.
 * @module
 */

const isNode = globalThis.process?.versions?.node !== undefined && globalThis.Deno === undefined;

/**
 * Begins a thread, which runs `worker.js`. `heard` gets what it says, and `told` why it ended, if it did so by itself.
 * @param {(said: any) => void} heard
 * @param {(why: string) => void} told
 */
export async function begun(heard, told) {
  // Of one that was told to end, or that said so once, no one hears any more.
  let isEnded = false;
  const ended = (why) => {
    if (isEnded) return;
    isEnded = true;
    told(why);
  };
  const script = new URL("worker.js", import.meta.url);
  if (isNode) {
    const { Worker } = await import("node:worker_threads");
    const worker = new Worker(script);
    worker.on("message", heard);
    worker.on("error", (error) => ended(error.message));
    worker.on("exit", (status) => ended(`it ended with status ${status}`));
    return { tell: (said) => worker.postMessage(said), end: () => void ((isEnded = true), worker.terminate()) };
  }
  const worker = new Worker(script, { type: "module" });
  worker.onmessage = ({ data }) => heard(data);
  worker.onerror = (event) => {
    event.preventDefault?.();
    ended(event.message ?? "it could not be begun");
  };
  return { tell: (said) => worker.postMessage(said), end: () => void ((isEnded = true), worker.terminate()) };
}

/** How many threads the machine runs at once. */
export const processors = () => globalThis.navigator?.hardwareConcurrency ?? 4;

/** In a thread: has it answer what it is told by what a function gives. */
export async function answering(answer) {
  if (isNode) {
    const { parentPort } = await import("node:worker_threads");
    parentPort.on("message", async (said) => parentPort.postMessage(await answer(said)));
    return;
  }
  globalThis.onmessage = async ({ data }) => globalThis.postMessage(await answer(data));
}

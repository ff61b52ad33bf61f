/**
 * The library's module: where it is, how it is had, and whether the engine runs it.
 * @module
 */
import { NoLibrary } from "./errors.js";

// A module with one function, of two instructions: it gives a vector of 128 bits.
const PROBE = Uint8Array.of(
  ...[0, 97, 115, 109, 1, 0, 0, 0, 1, 5, 1, 96, 0, 1, 123, 3, 2, 1, 0, 10, 8, 1, 6, 0, 65, 0, 253, 15, 11],
);

const NO_VECTORS =
  "NoLibrary: this engine has no WebAssembly with vectors of 128 bits (SIMD); Chromium 97, Firefox 114, Safari 16.4, " +
  "Node 20 and later ones run this package";

/** Whether the engine runs the library: whether it has WebAssembly with vectors of 128 bits. */
export function isSupported() {
  return typeof WebAssembly === "object" && WebAssembly.validate(PROBE);
}

/** @param {unknown} error */
const said = (error) => (error instanceof Error ? error.message : String(error));

/** @param {URL} url */
async function bytesOfFile(url) {
  const { readFile } = await import("node:fs/promises");
  return readFile(url);
}

/** @param {URL} url */
async function bytesAt(url) {
  if (url.protocol === "file:") return bytesOfFile(url);
  const response = await fetch(url);
  if (!response.ok) throw new Error(`the server answers ${response.status}`);
  return response.arrayBuffer();
}

/** Where the library is: what the environment names, or beside the package's sources. */
async function place() {
  const named = globalThis.process?.env?.WEOLDRIN_LIBRARY;
  if (!named) return new URL("../libwarg.wasm", import.meta.url);
  const { pathToFileURL } = await import("node:url");
  return pathToFileURL(named);
}

/**
 * The library's module, of an address, a response, bytes or a module; of the package's own file where none is given.
 * Throws `NoLibrary` where the engine does not run it, where it can't be had, and where it is no module.
 * @param {string | URL | Response | BufferSource | WebAssembly.Module} [source]
 * @returns {Promise<WebAssembly.Module>}
 */
export async function moduleOf(source) {
  if (!isSupported()) throw new NoLibrary(NO_VECTORS);
  if (source instanceof WebAssembly.Module) return source;
  let bytes, where;
  try {
    if (source instanceof ArrayBuffer || ArrayBuffer.isView(source)) bytes = source;
    else if (typeof Response === "function" && source instanceof Response) bytes = await source.arrayBuffer();
    else {
      where = source === undefined ? await place() : new URL(source, globalThis.location?.href);
      bytes = await bytesAt(where);
    }
  } catch (error) {
    throw new NoLibrary(`NoLibrary: the library can't be had${where ? ` from ${where}` : ""}: ${said(error)}`);
  }
  try {
    return await WebAssembly.compile(bytes);
  } catch (error) {
    throw new NoLibrary(`NoLibrary: what is had is no library: ${said(error)}`);
  }
}

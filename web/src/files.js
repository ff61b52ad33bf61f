/**
 * What was dropped or chosen: files, and what is none, with what is wrong with it.
 * @module
 */

/** No more bytes are read of a log, as the command does. */
export const MOST = 16_777_216;

/** @typedef {{ name: string, file?: File, bytes?: ArrayBuffer, fault?: { name: string, why?: string } }} Source */

/** What was dropped. It has to be looked at before the event has ended. */
export function dropped(transfer) {
  const found = [];
  for (const item of transfer.items) {
    if (item.kind !== "file") continue;
    const entry = item.webkitGetAsEntry?.();
    const file = item.getAsFile();
    if (entry?.isDirectory) found.push({ name: entry.name, fault: { name: "Folder" } });
    else if (file) found.push({ name: file.name, file });
  }
  if (!found.length) found.push({ name: "What was dropped", fault: { name: "NoFiles" } });
  return found;
}

/** The files that were chosen by the button. */
export const chosen = (files) => Array.from(files, (file) => ({ name: file.name, file }));

/** What an address names, by its own last part. */
function nameOf(address) {
  const last = address.pathname.split("/").at(-1);
  return last === "" ? address.host : last;
}

/** The bytes of an answer, or null where there are more than so many, of which no more is read. */
export async function bytesOf(response, most = MOST) {
  const parts = [];
  let size = 0;
  for (const reader = response.body.getReader(); size <= most; ) {
    const { done, value } = await reader.read();
    if (done) return new Blob(parts).arrayBuffer();
    parts.push(value);
    size += value.length;
    if (size > most) await reader.cancel();
  }
  return null;
}

/** What is fetched from an address: it is asked for without cookies, and told nothing. */
export async function fetched(text) {
  let address;
  try {
    address = new URL(text, document.baseURI);
    const response = await fetch(address, { credentials: "omit", referrerPolicy: "no-referrer" });
    if (!response.ok) throw new Error(`the server answers ${response.status}`);
    const bytes = await bytesOf(response);
    const name = nameOf(address);
    return bytes ? { name, bytes } : { name, fault: { name: "TooLarge", most: MOST } };
  } catch (error) {
    return { name: address ? nameOf(address) : text, fault: { name: "Address", why: error.message } };
  }
}

/**
 * What this browser saw of registries: the key that the operator log began with, and the last checkpoint that was
 * verified. It is kept by the page's own storage, which is the browser's and its user's to clear, and may be refused.
 * @module
 */
const nameOf = (address) => `weoldrin registry ${address}`;

/** What was seen of the registry at an address; null for nothing. */
export function seenOf(address) {
  try {
    const { key, checkpoint } = JSON.parse(localStorage.getItem(nameOf(address)));
    return { key: String(key), checkpoint: String(checkpoint) };
  } catch {
    return null;
  }
}

/** Keeps what was verified. */
export function keep(address, { key, checkpoint }) {
  try {
    localStorage.setItem(nameOf(address), JSON.stringify({ key, checkpoint }));
  } catch {
    // The next one is then taken as it comes, which is said.
  }
}

/** Forgets it. */
export function forgetSeen(address) {
  try {
    localStorage.removeItem(nameOf(address));
  } catch {
    // Nothing is kept there.
  }
}

/**
 * SHA-256 (FIPS 180-4), for the texts of digests in records, which are wanted at once; WebCrypto's is a promise.
 * @module
 */

/** The first 32 bits behind the point of the roots of the first primes. */
function constants() {
  const [starts, rounds] = [[], []];
  for (let number = 2; rounds.length < 64; number++) {
    if ([...Array(number).keys()].some((it) => it > 1 && number % it === 0)) continue;
    const bits = (root) => ((root - Math.floor(root)) * 2 ** 32) >>> 0;
    if (starts.length < 8) starts.push(bits(Math.sqrt(number)));
    rounds.push(bits(Math.cbrt(number)));
  }
  return [starts, rounds];
}

const [STARTS, ROUNDS] = constants();

const turned = (word, places) => (word >>> places) | (word << (32 - places));

function compressed(state, block, words) {
  for (let place = 0; place < 64; place++) {
    if (place < 16) {
      words[place] = block.getUint32(4 * place);
      continue;
    }
    const [before, last] = [words[place - 15], words[place - 2]];
    const low = turned(before, 7) ^ turned(before, 18) ^ (before >>> 3);
    const high = turned(last, 17) ^ turned(last, 19) ^ (last >>> 10);
    words[place] = words[place - 16] + low + words[place - 7] + high;
  }
  let [a, b, c, d, e, f, g, h] = state;
  for (let place = 0; place < 64; place++) {
    const chosen = (e & f) ^ (~e & g);
    const first = (h + (turned(e, 6) ^ turned(e, 11) ^ turned(e, 25)) + chosen + ROUNDS[place] + words[place]) | 0;
    const second = ((turned(a, 2) ^ turned(a, 13) ^ turned(a, 22)) + ((a & b) ^ (a & c) ^ (b & c))) | 0;
    [h, g, f, e, d, c, b, a] = [g, f, e, (d + first) | 0, c, b, a, (first + second) | 0];
  }
  [a, b, c, d, e, f, g, h].forEach((word, place) => (state[place] += word));
}

/**
 * The SHA-256 digest of bytes.
 * @param {Uint8Array} bytes
 * @returns {Uint8Array}
 */
export function sha256(bytes) {
  const padded = new Uint8Array(64 * Math.ceil((bytes.length + 9) / 64));
  padded.set(bytes);
  padded[bytes.length] = 0x80;
  const view = new DataView(padded.buffer);
  view.setBigUint64(padded.length - 8, BigInt(bytes.length) * 8n);
  const [state, words] = [Uint32Array.from(STARTS), new Uint32Array(64)];
  for (let at = 0; at < padded.length; at += 64) compressed(state, new DataView(padded.buffer, at, 64), words);
  const digest = new DataView(new ArrayBuffer(32));
  state.forEach((word, place) => digest.setUint32(4 * place, word));
  return new Uint8Array(digest.buffer);
}

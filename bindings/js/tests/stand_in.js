// A module that stands in for the library, and does nothing but what its few calls are told to.

/** Codes of calls: a trap, and a status as the answer. */
export const TRAP = [0x00];
export const status = (number) => [0x41, number];

// So many logs are open: of each that is opened beyond a number the answer is that there is no memory.
const OPEN = [0x23, 0];
export const atMost = (number) => [
  ...[...OPEN, 0x41, number, 0x4f, 0x04, 0x7f, ...status(2)],
  ...[0x05, ...OPEN, 0x41, 1, 0x6a, 0x24, 0, ...status(0), 0x0b],
];
const CLOSED = [...OPEN, 0x41, 1, 0x6b, 0x24, 0];

/** The bytes of a module whose calls have these codes. */
export function standIn({ open = status(0), append = TRAP, ask = TRAP } = {}) {
  // Of functions without parameters: one gives 64 bits, one 32, one nothing; numbers that are passed are passed over.
  const [long, short, none] = [0, 1, 2];
  // At 1024 there is room.
  const calls = {
    host_alloc: [long, [0x42, 0x80, 0x08]],
    host_free: [none, []],
    host_limit: [none, []],
    host_used: [long, [0x42, 0]],
    warg_open: [short, open],
    warg_close: [none, CLOSED],
    warg_append_signed: [short, append],
    warg_ask: [short, ask],
  };
  const [types, codes] = [0, 1].map((part) => Object.values(calls).map((it) => it[part]));
  const text = (it) => [it.length, ...Buffer.from(it)];
  const section = (number, bytes) => [number, (bytes.length & 127) | 128, bytes.length >> 7, ...bytes];
  const exports = [...Object.keys(calls).map((it, place) => [...text(it), 0, place]), [...text("memory"), 2, 0]];
  return Uint8Array.from([
    ...[0, 0x61, 0x73, 0x6d, 1, 0, 0, 0],
    ...section(1, [3, ...[0x60, 0, 1, 0x7e], ...[0x60, 0, 1, 0x7f], ...[0x60, 0, 0]]),
    ...section(3, [types.length, ...types]),
    ...section(5, [1, 0, 1]),
    ...section(6, [1, 0x7f, 1, 0x41, 0, 0x0b]),
    ...section(7, [exports.length, ...exports.flat()]),
    ...section(10, [codes.length, ...codes.flatMap((it) => [it.length + 2, 0, ...it, 0x0b])]),
  ]);
}

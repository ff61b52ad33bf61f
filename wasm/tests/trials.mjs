// trials.mjs heap|wide|shuffle|addresses MODULE SEED: tries a part of the library by itself, beside what it has to answer. The
// status is 1 where it answers otherwise.
import { readFileSync } from "node:fs";
import { argv, exit } from "node:process";

const [part, path, seed = "1"] = argv.slice(2);
const { exports } = new WebAssembly.Instance(new WebAssembly.Module(readFileSync(path)), {});

let state = BigInt(seed) * 2n + 1n;
/** A number below 2^64, the same of the same seed. */
function some() {
  state = BigInt.asUintN(64, state ^ (state << 13n));
  state ^= state >> 7n;
  state = BigInt.asUintN(64, state ^ (state << 17n));
  return state;
}

function heap() {
  const requests = 1_000_000n;
  const failed = exports.heap_trial(BigInt(seed), requests, 60n << 20n, 1);
  if (failed) return `the heap fails at request ${failed}, by seed ${seed}`;
  console.log(`${requests} requests, ${exports.heap_refused()} refused`);
  return "";
}

// Room for three numbers of 128 bits, or three lists of sixteen bytes. What lies there is no one's.
const [to, left, right] = [0n, 32n, 64n].map((it) => exports.host_alloc?.(32n) ?? it);
const view = new DataView(exports.memory.buffer);

const EDGES = [0n, 1n, 2n, (1n << 32n) - 1n, 1n << 32n, (1n << 63n) - 1n, 1n << 63n, (1n << 64n) - 1n];

function put(at, number) {
  view.setBigUint64(Number(at), BigInt.asUintN(64, number), true);
  view.setBigUint64(Number(at) + 8, BigInt.asUintN(64, number >> 64n), true);
}

const found = () => view.getBigUint64(Number(to), true) | (view.getBigUint64(Number(to) + 8, true) << 64n);
const low = (number) => BigInt.asUintN(128, number);

function wide() {
  const numbers = EDGES.flatMap((high) => EDGES.map((it) => (high << 64n) | it));
  for (let turn = 0; turn < 200; turn++) numbers.push((some() << 64n) | some(), some(), some() >> 32n);
  for (const a of numbers) {
    put(left, a);
    for (const b of numbers) {
      put(right, b);
      exports.product(to, left, right);
      if (found() !== low(a * b)) return `the product of ${a} and ${b} is ${found()}`;
    }
    for (let places = 0; places < 128; places++) {
      exports.shifted_left(to, left, places);
      if (found() !== low(a << BigInt(places))) return `${a} shifted left by ${places} is ${found()}`;
      exports.shifted_right(to, left, places);
      if (found() !== a >> BigInt(places)) return `${a} shifted right by ${places} is ${found()}`;
    }
  }
  console.log(`${numbers.length ** 2} products, ${numbers.length * 256} shifts`);
  return "";
}

function shuffle() {
  const bytes = (at) => new Uint8Array(exports.memory.buffer, Number(at), 16);
  const turns = 200_000;
  for (let turn = 0; turn < turns; turn++) {
    for (const at of [left, right]) put(at, (some() << 64n) | some());
    // Each place that a byte can say.
    if (turn < 256) bytes(right).fill(turn);
    const [from, places] = [[...bytes(left)], [...bytes(right)]];
    exports.shuffled(to, left, right);
    const wanted = places.map((it) => (it >= 128 ? 0 : from[it & 15]));
    if (wanted.join() !== [...bytes(to)].join()) return `${from} by ${places} is ${[...bytes(to)]}`;
  }
  console.log(`${turns} shuffles`);
  return "";
}

function traps(call, ...words) {
  try {
    call(...words);
    return false;
  } catch (error) {
    return error instanceof WebAssembly.RuntimeError || error instanceof RangeError;
  }
}

// What the numbers are that are stored and loaded, by their widths.
const STORED = [
  (it) => BigInt.asUintN(8, it),
  (it) => BigInt.asUintN(16, it),
  (it) => BigInt.asUintN(32, it),
  (it) => it,
  (it) => BigInt(Math.fround(Number(it))),
  (it) => BigInt(Number(it)),
  (it) => BigInt.asUintN(32, it + 4n),
];
const WITH_SIGN = [8, 16, 32].map((bits) => (it) => BigInt.asUintN(64, BigInt.asIntN(bits, it)));

function accesses(at) {
  const { stored } = exports;
  const loaded = (width) => BigInt.asUintN(64, exports.loaded(BigInt(at), width));
  const bytes = new Uint8Array(exports.memory.buffer, at, 64);
  for (let turn = 0; turn < 1000; turn++) {
    const number = some() >> BigInt(turn % 40);
    for (const [width, wanted] of STORED.entries()) {
      // Floats have whole numbers of up to 53 bits.
      if ((width === 4 || width === 5) && number >> 53n) continue;
      bytes.fill(0xa5);
      stored(BigInt(at), width, number);
      const size = [1, 2, 4, 8, 4, 8, 16][width];
      if (bytes.some((it, place) => it !== 0xa5 && (place < 16 || place >= 16 + size))) return `${width} writes beside`;
      if (loaded(width) !== wanted(number)) return `${number} by ${width} is ${loaded(width)}`;
      const signed = WITH_SIGN[width];
      if (signed && loaded(width + 7) !== signed(number)) return `${number} by ${width} with a sign is another`;
    }
  }
  return "";
}

function moves(at) {
  const all = () => [...new Uint8Array(exports.memory.buffer, at, 256)];
  for (let turn = 0; turn < 1000; turn++) {
    const [to, from, length, byte] = [1, 2, 3, 4].map(() => Number(some() % 100n));
    const wanted = all();
    wanted.fill(byte, from, from + length);
    exports.filled(BigInt(at + from), byte, BigInt(length));
    if (wanted.join() !== all().join()) return `${length} bytes are filled otherwise`;
    new Uint8Array(exports.memory.buffer, at, 256).set(wanted.map((_, place) => place ^ byte));
    const before = all();
    exports.copied(BigInt(at + to), BigInt(at + from), BigInt(length));
    before.copyWithin(to, from, from + length);
    if (before.join() !== all().join()) return `${length} bytes are copied otherwise`;
  }
  return "";
}

// Memory has all but the last 64 MiB of what addresses of 32 bits reach, and what is beyond it is none.
function ends() {
  const { pages, pages_more: more, loaded, stored, deep } = exports;
  const most = 65536n - 1024n;
  for (const it of [most + 1n, 1n << 32n, (1n << 32n) + 1n, (1n << 63n) + 1n]) {
    if (more(it) !== BigInt.asIntN(64, -1n)) return `${it} pages more are given`;
  }
  const had = pages();
  if (more(most - had) !== had || pages() !== most) return `there are ${pages()} pages, and ${most} are wanted`;
  if (more(1n) !== -1n) return "there is a page more than there may be";
  const end = most << 16n;
  stored(end - 32n, 3, 7n);
  if (loaded(end - 32n, 3) !== 7n) return "the last bytes are not there";
  for (const it of [end, end - 23n, -32n, -(64n << 20n), (1n << 32n) - 64n]) {
    if (!traps(loaded, it, 3) || !traps(stored, it, 3, 1n)) return `there is memory at ${it}`;
  }
  if (deep(4n) !== 10n) return "frames of the stack are lost";
  // Each frame is written to, so what is below the stack is found by one of them, however many there are.
  if (!traps(deep, 20n) || !traps(deep, 40n)) return "there is memory below the stack";
  return "";
}

function addresses() {
  const fault = accesses(4096) || moves(8192) || ends();
  if (!fault) console.log("each kind of access, and where memory ends");
  return fault;
}

const fault = { heap, wide, shuffle, addresses }[part]();
if (fault) console.error(fault);
exit(fault ? 1 : 0);

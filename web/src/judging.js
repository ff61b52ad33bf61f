/**
 * Judges a log's file, in a thread. What decides is the library; signatures of P-256 are verified by WebCrypto where
 * there is one, behind the strict readers of bindings/js, and by the library else.
 * @module
 */
import { Empty, UnknownAlgorithm, appendAll, envelopesOf, logOf, p256 } from "../../bindings/js/src/index.js";
import { recordLines } from "../../bindings/js/src/lines.js";
import { begins, isToy, questionOf, schemeOf } from "../../bindings/js/src/schemes.js";

const KINDS = ["package", "operator"];
// So many milliseconds a log is judged before others are heard, and before it is told how far it is.
const TURN = 40;

/** Lets what waits be heard. A timer of no time would wait for four milliseconds. */
export function pause() {
  return new Promise((done) => {
    const { port1, port2 } = new MessageChannel();
    port1.onmessage = () => {
      port1.close();
      done();
    };
    port2.postMessage(0);
  });
}

/** Whether this page has WebCrypto. */
export const hasWebCrypto = () => globalThis.crypto?.subtle !== undefined;

/** What lets others be heard where a turn has ended, and then says how far it is. */
export function turns(heard) {
  let last = performance.now();
  return async (...words) => {
    if (performance.now() - last <= TURN) return;
    heard(...words);
    await pause();
    last = performance.now();
  };
}

/** What verifies a question's signature: P-256, and the toy scheme where it is asked for. */
export function verifierOf(library, toy) {
  const byLibrary = (question) => p256.verify(question, { library });
  const verifyP256 = hasWebCrypto() ? p256.verifyByWebCrypto : byLibrary;
  return (question) => {
    const scheme = schemeOf(question);
    if (scheme === p256.ALGORITHM) return verifyP256(question);
    if (toy && scheme === "toy") return isToy(question);
    throw new UnknownAlgorithm();
  };
}

/** Of which kind a log is that begins with the envelope, or null where that is not known. */
async function kindOf(library, envelope) {
  for (const kind of KINDS) {
    const log = await logOf(kind, { library });
    try {
      if (begins(log, envelope)) return kind;
    } finally {
      log.close();
    }
  }
  return null;
}

/** The name of the scheme of a refused record's key, or an empty text where no signature could help. */
function schemeAt(log, envelope) {
  const question = questionOf(log, envelope);
  return question === null ? "" : schemeOf(question);
}

/** What is known of a refused record beside the library's sentence. */
async function causeOf(log, refusal, envelope) {
  if (!envelope.length) return { cause: "blank", scheme: "" };
  const found = refusal.place === 0 ? await kindOf(log.library, envelope) : null;
  if (found !== null && found !== log.kind) return { cause: "kind", scheme: "" };
  return { cause: "", scheme: refusal.name === "UnknownAlgorithm" ? schemeAt(log, envelope) : "" };
}

/** The line of a file, from 1, on which the record at a place stands. */
function lineAt(bytes, place) {
  let at = 0;
  for (const { number } of recordLines(bytes)) if (at++ === place) return number;
  return 0;
}

/**
 * Judges the bytes of a log's file. `kind` is one of the kinds, or "any", which is what the first record says. `heard`
 * gets how many records were taken and how many there are, now and then. Throws the faults of the file.
 */
export async function judge(bytes, { kind: asked, toy, library }, heard) {
  const envelopes = envelopesOf(bytes);
  if (!envelopes.length) throw new Empty();
  const kind = asked === "any" ? ((await kindOf(library, envelopes[0])) ?? KINDS[0]) : asked;
  const log = await logOf(kind, { library });
  const verify = verifierOf(library, toy);
  const turn = turns(heard);
  let [place, toys] = [0, 0];
  const counted = async (question) => {
    if (schemeOf(question) === "toy") toys++;
    await turn(place++, envelopes.length);
    return verify(question);
  };
  try {
    const { taken, refusal } = await appendAll(log, envelopes, counted);
    const found = { log, kind, taken, count: envelopes.length, toys, refusal: null };
    if (refusal === null) return found;
    const envelope = envelopes[taken];
    const { name, sentence } = refusal;
    const beside = { ...(await causeOf(log, refusal, envelope)), line: lineAt(bytes, taken), envelope };
    return { ...found, refusal: { place: taken, name, sentence, ...beside } };
  } catch (error) {
    log.close();
    throw error;
  }
}

/**
 * A thread that audits one log after the other, over a library of its own.
 * @module
 */
import { auditFile } from "./auditing.js";
import { Library } from "./library.js";
import { verifyByWebCrypto } from "./p256.js";
import { answering } from "./threads.js";

let library;
let job = {};

await answering(async (told) => {
  const { place, file, isAddress } = told;
  job = { ...job, ...told };
  try {
    const { kind, allowEmpty, module, maximum, verifier } = job;
    // One that trapped is given up: the next log is judged by another one.
    if (!library || library.isGivenUp) library = await Library.load({ source: module, maximum });
    const verify = verifier === "web-crypto" ? verifyByWebCrypto : undefined;
    const named = isAddress ? new URL(file) : file;
    const { path, records, head, refusal, fault } = await auditFile(named, kind, verify, { allowEmpty, library });
    const { name, why, line, number, cause } = fault ?? {};
    const said = fault && { name, why, line, number, cause };
    return { place, verdict: { path, records, head, refusal: refusal && { ...refusal }, fault: said } };
  } catch (error) {
    return { place, error: { name: error.name, message: error.message } };
  }
});

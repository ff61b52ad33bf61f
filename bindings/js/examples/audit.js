// Audits logs: `node audit.js package FILE..` prints a line for each file, by signatures of ECDSA P-256.
//
// The status is 0 where all are accepted, 1 where a record was refused or a log is empty, 2 where a file could not be
// read, and 3 where the lines could not be written.
import { writeSync } from "node:fs";
import { argv, exit } from "node:process";
import { Empty, auditFile } from "weoldrin";

const [kind, ...files] = argv.slice(2);
let status = 0;
for (const file of files) {
  const verdict = await auditFile(file, kind);
  try {
    writeSync(1, `${verdict}\n`);
  } catch (error) {
    console.error(`standard output could not be written: ${error.code}`);
    exit(3);
  }
  if (!verdict.accepted) status = Math.max(status, verdict.fault && !(verdict.fault instanceof Empty) ? 2 : 1);
}
exit(status);

// Times the appending of a package log in a browser, which is begun without a window: `node in_browser.mjs BROWSER RUNS
// LOG`, a line an envelope. The package is the one beside this, with the library of dist/, or of the file that
// WEOLDRIN_LIBRARY names.
//
// Prints the least time of the runs in microseconds a record, asking and appending together: who verifies signatures,
// and how, is no matter here, so that each is taken to belong.
import { readFileSync } from "node:fs";
import { argv, env, exit } from "node:process";
import { fileURLToPath } from "node:url";
import { answerIn } from "../tests/browsing.js";

const [browser, runs, log] = argv.slice(2);
if (!log || !(Number(runs) > 0)) {
  console.error("node in_browser.mjs BROWSER RUNS LOG");
  exit(2);
}
const files = {
  "/log": readFileSync(log),
  "/runs": Buffer.from(runs),
  "/page.js": new URL("timed_page.js", import.meta.url),
  "/package/libwarg.wasm": env.WEOLDRIN_LIBRARY || new URL("../../../dist/wasm/libwarg.wasm", import.meta.url),
};
const said = await answerIn(browser, files, fileURLToPath(new URL("..", import.meta.url)), 600);
console.log(said);
exit(said.startsWith("FAILED") ? 1 : 0);

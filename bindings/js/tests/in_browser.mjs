// in_browser.mjs PACKAGE BROWSER: tries the package in a browser, which is begun without a window: a log that is signed
// and appended, the rows of P-256 by WebCrypto and by the library, the trees of a registry, an audit of a file, and
// audits by workers. PACKAGE is the folder of the installed package.
import { argv, env, exit } from "node:process";
import { answerIn } from "./browsing.js";

const [folder, browser] = argv.slice(2);
const root = env.WEOLDRIN_ROOT;
const said = await answerIn(
  browser,
  {
    "/rows": `${root}/conformance/values/p256.rows`,
    "/log": `${root}/examples/p256/package.hex`,
    "/page.js": new URL("browser_page.js", import.meta.url),
  },
  folder,
);
console.log(said);
exit(said.startsWith("ok ") ? 0 : 1);

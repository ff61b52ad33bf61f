// Lays the library of dist/ beside the package's sources, as `npm pack` has it, and `npm install` of the folder.
// WEOLDRIN_LIBRARY names another file of it.
import { copyFileSync } from "node:fs";
import { env, exit } from "node:process";

const library = env.WEOLDRIN_LIBRARY || new URL("../../dist/wasm/libwarg.wasm", import.meta.url);
try {
  copyFileSync(library, new URL("libwarg.wasm", import.meta.url));
} catch (error) {
  console.error(`there is no library ${library}: ${error.code}`);
  exit(1);
}

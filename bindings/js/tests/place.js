// Where the repository is.
import { existsSync } from "node:fs";
import { env } from "node:process";
import { pathToFileURL } from "node:url";
import { setFlagsFromString } from "node:v8";
import { runInNewContext } from "node:vm";

export const ROOT = env.WEOLDRIN_ROOT ? pathToFileURL(`${env.WEOLDRIN_ROOT}/`) : new URL("../../../", import.meta.url);

/** Of a file of the repository. */
export const at = (path) => new URL(path, ROOT);

/** Why there is nothing to be tested with, or false where there is. */
export const without = (path) => (existsSync(at(path)) ? false : `there is no ${path} here`);

/** Collects what is forgotten. */
export function collect() {
  setFlagsFromString("--expose-gc");
  runInNewContext("gc")();
}

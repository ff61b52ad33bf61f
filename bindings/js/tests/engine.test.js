// What is said where the library can't be had, or not be run.
import { at } from "./place.js";
import assert from "node:assert/strict";
import { spawnSync } from "node:child_process";
import { mkdtempSync, readFileSync, rmSync, writeFileSync } from "node:fs";
import { createServer } from "node:http";
import { tmpdir } from "node:os";
import { execPath } from "node:process";
import { test } from "node:test";
import { pathToFileURL } from "node:url";
import { Library, NoLibrary, PackageLog, isSupported } from "weoldrin";

const said = (pattern) => (error) => {
  assert.ok(error instanceof NoLibrary, String(error));
  assert.match(String(error), pattern);
  return true;
};

const library = await Library.load();

/** Runs a piece of a module in another process. */
function elsewhere(code, flags = []) {
  const words = [...flags, "--input-type=module", "-e", code];
  return spawnSync(execPath, words, { cwd: new URL(".", import.meta.url), encoding: "utf8" });
}

const NO_VECTORS =
  "NoLibrary: this engine has no WebAssembly with vectors of 128 bits (SIMD); Chromium 97, Firefox 114, Safari 16.4, " +
  "Node 20 and later ones run this package\n";

test("an engine without vectors", () => {
  const code = `
    const { PackageLog, isSupported } = await import("weoldrin");
    console.log(isSupported());
    await PackageLog.open().catch((error) => console.log(String(error)));
  `;
  // This engine has none where the processor has no instructions for them.
  assert.equal(elsewhere(code, ["--no-enable-sse4-1"]).stdout, `false\n${NO_VECTORS}`);
  assert.equal(elsewhere(`WebAssembly.validate = () => false;${code}`).stdout, `false\n${NO_VECTORS}`);
  assert.equal(elsewhere(code).stdout, "true\n");
  assert.equal(isSupported(), true);
});

test("an engine without WebAssembly", () => {
  const { stdout } = elsewhere(`
    delete globalThis.WebAssembly;
    const { PackageLog } = await import("weoldrin");
    await PackageLog.open().catch((error) => console.log(String(error)));
  `);
  assert.equal(stdout, NO_VECTORS);
});

test("a module that is not there, is none, or is another", async () => {
  await assert.rejects(
    () => Library.load({ source: pathToFileURL("/none/lib.wasm") }),
    said(/^NoLibrary: the library can't be had from file:\/\/\/none\/lib\.wasm: ENOENT/),
  );
  await assert.rejects(
    () => Library.load({ source: pathToFileURL("/") }),
    said(/can't be had from file:\/\/\/: EISDIR/),
  );
  await assert.rejects(() => Library.load({ source: "no address" }), said(/^NoLibrary: the library can't be had: /));
  await assert.rejects(
    () => Library.load({ source: Buffer.from("no module") }),
    said(/^NoLibrary: what is had is no library: /),
  );
  await assert.rejects(
    () => Library.load({ source: new Uint8Array() }),
    said(/^NoLibrary: what is had is no library: /),
  );
  const empty = Uint8Array.of(0, 97, 115, 109, 1, 0, 0, 0);
  await assert.rejects(() => Library.load({ source: empty }), said(/^NoLibrary: the library can't be begun: /));
  const importing = Uint8Array.of(0, 97, 115, 109, 1, 0, 0, 0, 1, 4, 1, 0x60, 0, 0, 2, 7, 1, 1, 97, 1, 98, 0, 0);
  await assert.rejects(() => Library.load({ source: importing }), said(/^NoLibrary: the library can't be begun: /));
});

test("a module of the network, whose server may say no", async () => {
  const bytes = readFileSync(
    process.env.WEOLDRIN_LIBRARY ?? new URL("libwarg.wasm", import.meta.resolve("weoldrin/package.json")),
  );
  const server = createServer((request, response) => {
    if (request.url !== "/libwarg.wasm") response.writeHead(404).end("none");
    else response.writeHead(200, { "content-type": "text/plain" }).end(bytes);
  });
  await new Promise((done) => server.listen(0, "127.0.0.1", done));
  const base = `http://127.0.0.1:${server.address().port}`;
  try {
    assert.equal((await Library.load({ source: `${base}/libwarg.wasm` })).version(), library.version());
    assert.equal((await Library.load({ source: await fetch(`${base}/libwarg.wasm`) })).version(), library.version());
    await assert.rejects(
      () => Library.load({ source: `${base}/x` }),
      said(/can't be had from http:.*\/x: the server answers 404$/),
    );
  } finally {
    server.closeAllConnections();
    server.close();
  }
  await assert.rejects(
    () => Library.load({ source: `${base}/libwarg.wasm` }),
    said(/^NoLibrary: the library can't be had from http:/),
  );
});

test("bytes, and a module that was compiled", async () => {
  assert.equal((await Library.load({ source: library.module })).version(), library.version());
  assert.deepEqual(WebAssembly.Module.imports(library.module), []);
  const names = WebAssembly.Module.exports(library.module).map((it) => it.name);
  const header = readFileSync(at("include/warg.h"), "utf8");
  const wanted = [...header.matchAll(/^(?:uint32_t|void) (warg_\w+)\(/gm)].map((it) => it[1]);
  assert.deepEqual(
    names.sort(),
    [...new Set([...wanted, "host_alloc", "host_free", "host_limit", "host_used", "memory"])].sort(),
  );
});

test("a load that failed is tried again", () => {
  const folder = mkdtempSync(`${tmpdir()}/weoldrin-`);
  const path = `${folder}/lib.wasm`;
  try {
    const good = process.env.WEOLDRIN_LIBRARY ?? new URL("libwarg.wasm", import.meta.resolve("weoldrin/package.json"));
    writeFileSync(`${folder}/good`, readFileSync(good));
    const code = `
      import { copyFileSync } from "node:fs";
      process.env.WEOLDRIN_LIBRARY = ${JSON.stringify(path)};
      const { PackageLog } = await import("weoldrin");
      await PackageLog.open().catch((error) => console.log(error.constructor.name));
      copyFileSync(${JSON.stringify(`${folder}/good`)}, ${JSON.stringify(path)});
      console.log((await PackageLog.open()).head());`;
    assert.equal(elsewhere(code).stdout, "NoLibrary\nnull\n");
  } finally {
    rmSync(folder, { recursive: true });
  }
});

test("a log is made over a library that was loaded", async () => {
  const log = await PackageLog.open({ library });
  assert.equal(log.library, library);
  log.close();
});

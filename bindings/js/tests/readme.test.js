// The README's code does what its comments say.
import { at, without } from "./place.js";
import assert from "node:assert/strict";
import { spawnSync } from "node:child_process";
import { readFileSync, writeFileSync, rmSync } from "node:fs";
import { execPath } from "node:process";
import { test } from "node:test";
import { fileURLToPath } from "node:url";

const README = "bindings/js/README.md";

test("each block of JavaScript", { skip: without(README) }, () => {
  const blocks = [...readFileSync(at(README), "utf8").matchAll(/^```js\n(.*?)^```$/gms)].map((it) => it[1]);
  assert.ok(blocks.length);
  blocks.forEach((block, place) => {
    const file = fileURLToPath(new URL(`readme-${process.pid}-${place}.mjs`, import.meta.url));
    const code = block.replace(/^import (.*) from "weoldrin";$/gm, 'const $1 = await import("weoldrin");');
    writeFileSync(file, code);
    try {
      const { stdout, stderr } = spawnSync(execPath, [file], { encoding: "utf8" });
      assert.equal(stderr, "");
      const wanted = [...block.matchAll(/console\.log\(.*\); +\/\/ (.*)/g)].map((it) => it[1]);
      assert.deepEqual(stdout.trim().split("\n"), wanted);
    } finally {
      rmSync(file);
    }
  });
});

test("each name of the package has its type, and each type its name", async () => {
  const typesOf = (name) => readFileSync(new URL(`src/${name}`, import.meta.resolve("weoldrin/package.json")), "utf8");
  const index = typesOf("index.d.ts");
  const parts = [...index.matchAll(/^export \{ .* \} from "\.\/(\w+)\.js"/gm)].map((it) => typesOf(`${it[1]}.d.ts`));
  const types = [index, ...parts].join("");
  const package_ = await import("weoldrin");
  const values = [...types.matchAll(/^export (?:abstract )?(?:const|class|function) (\w+)/gm)].map((it) => it[1]);
  const spaces = [...types.matchAll(/^export \* as (\w+)/gm)].map((it) => it[1]);
  assert.deepEqual([...new Set([...values, ...spaces])].sort(), Object.keys(package_).sort());
  for (const space of spaces) {
    const names = [...typesOf(`${space}.d.ts`).matchAll(/^export (?:const|class|function) (\w+)/gm)].map((it) => it[1]);
    assert.deepEqual(names.sort(), Object.keys(package_[space]).sort(), space);
  }
  for (const name of ["Library", "Log", "PackageLog", "OperatorLog", "RegistryTrees"]) {
    const body = new RegExp(`^export (?:abstract )?class ${name} .*?^}$`, "ms").exec(types)[0];
    const members = [...body.matchAll(/^ {2}(?:static )?(?:readonly )?(\w+)[(:]/gm)].map((it) => it[1]);
    const typed = members.filter((it) => it !== "constructor");
    const Class = package_[name];
    for (const it of typed) assert.ok(it in Class.prototype || it in Class || it === "module", `${name}.${it}`);
    const own = [...Object.getOwnPropertyNames(Class.prototype), ...Object.getOwnPropertyNames(Class)];
    // What serves the package's own files alone has no type.
    const hidden = [
      "constructor",
      "length",
      "name",
      "prototype",
      "newHandle",
      "closeHandle",
      "taken",
      "givenBack",
      "status",
      "told",
      "isDone",
      "isShown",
      "filled",
      "beside",
      "words",
      "numbers",
      "said",
    ];
    for (const it of own.filter((it) => !hidden.includes(it))) {
      const isInherited = name.endsWith("Log") && /open|fromJson|KIND/.test(it);
      assert.ok(typed.includes(it) || isInherited, `${name}.${it} has no type`);
    }
  }
});

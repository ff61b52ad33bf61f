// What in_browser.mjs has a browser run.
import { Library, PackageLog, RegistryTrees, auditFile, auditMany, p256, records } from "/package/src/index.js";

function must(it, what) {
  if (!it) throw new Error(what);
}

async function log() {
  const alice = await p256.SigningKey.generate();
  const entries = [records.init(alice.publicKey), records.release("1.0.0", records.sha256Text(new Uint8Array()))];
  const contents = records.contents(null, records.now(), entries);
  const envelope = await records.signed("package", contents, alice.publicKey, (message) => alice.sign(message));
  for (const verify of [undefined, p256.verify, p256.verifyByWebCrypto]) {
    const it = await PackageLog.open();
    await it.append(envelope, verify);
    must(it.latest("*").version === "1.0.0", "the release is missing");
    it.close();
  }
}

async function rows() {
  const library = await Library.load();
  const bytesOf = (word) => Uint8Array.from(word === "-" ? [] : word.match(/../g), (it) => Number.parseInt(it, 16));
  let played = 0;
  for (const line of (await (await fetch("/rows")).text()).replaceAll("\\\n", "").split("\n")) {
    const found = /^p256-verify (\S+) (\S+) (\S+)\s+= (yes|no)$/.exec(line.trim().replace(/\s+/g, " "));
    if (!found) continue;
    const [key, message, signature] = found.slice(1, 4).map(bytesOf);
    const question = { key: p256.textOf(key), message, signature: p256.textOf(signature) };
    for (const said of [await p256.verify(question, { library }), await p256.verifyByWebCrypto(question)]) {
      must(said === (found[4] === "yes"), `another answer to ${line}`);
    }
    played++;
  }
  must(played > 2000, `${played} rows`);
  return played;
}

// Of the rows of conformance/values: the map of the first leaf below, and the log of all of them.
const MAP_ROOT = "sha256:1b609bcf1dc3a00f13e2fde2f68c9ab006e39d2fe2f7d8afc6ae550ea3a2c758";
const LOG_ROOT = "sha256:0915e5e33416c991c2ac5d07c3499bbf68952d248c16afdc509217beede803e8";

async function trees() {
  const trees = await RegistryTrees.open();
  const { library } = trees;
  const idOf = (text) => records.sha256Text(new TextEncoder().encode(text));
  const leaves = Array.from({ length: 8 }, (_, place) => [idOf(`log ${place % 3}`), idOf(`record ${place}`)]);
  const before = [];
  for (const [place, leaf] of leaves.entries()) {
    must(trees.push(...leaf) === place, "the place of a leaf");
    before.push(trees.roots());
  }
  const { logRoot, mapRoot } = trees.roots();
  must(before[0].mapRoot === MAP_ROOT && logRoot === LOG_ROOT, "the roots");
  leaves.forEach((leaf, place) => {
    must(library.verifyInclusion(...leaf, place, 8, logRoot, trees.inclusion(place)), "a proof of inclusion");
    const old = [place + 1, before[place].logRoot];
    must(library.verifyConsistency(...old, 8, logRoot, trees.consistency(place + 1)), "a proof of consistency");
    const { recordId, proof } = trees.head(leaf[0]);
    must(library.verifyPresence(leaf[0], recordId, mapRoot, proof), "a proof of presence");
  });
  const { recordId, proof } = trees.head(idOf("log 9"));
  must(recordId === null && library.verifyAbsence(idOf("log 9"), mapRoot, proof), "a proof of absence");
  trees.close();
}

async function audits() {
  const bytes = await (await fetch("/log")).arrayBuffer();
  const file = new File([bytes], "package.hex");
  must(String(await auditFile(file, "package")).startsWith("package.hex: ok 4 sha256:8e61d0"), "the audit");
  const found = await auditMany(
    [file, new File(["zz"], "x"), file, "a path"],
    "package",
    { workers: 2, verifier: "web-crypto" },
  );
  must(found.map((it) => it.accepted).join() === "true,false,true,false", found.map(String).join());
  must(String(found[1]) === "x: bad line 0", String(found[1]));
  must(/hand in a File/.test(String(found[3])), String(found[3]));
}

let said;
try {
  await log();
  const played = await rows();
  await trees();
  await audits();
  said = `ok ${played} rows of P-256 by the library and by WebCrypto: ${navigator.userAgent}`;
} catch (error) {
  said = `FAILED ${error} ${error.stack}`;
}
await fetch("/done", { method: "POST", body: said });

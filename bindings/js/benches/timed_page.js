// The script of the page of in_browser.mjs: appends the log so many times, and posts the least time.
import { PackageLog, envelopesOf } from "/package/src/index.js";

const fetched = async (path) => (await fetch(path)).arrayBuffer();

async function timed() {
  const envelopes = envelopesOf(new Uint8Array(await fetched("/log")));
  const runs = Number(new TextDecoder().decode(await fetched("/runs")));
  let least = Infinity;
  for (let run = 0; run < runs; run++) {
    const log = await PackageLog.open();
    const start = performance.now();
    for (const it of envelopes) log.appendAnswered(it, log.ask(it), true);
    least = Math.min(least, performance.now() - start);
    log.close();
  }
  const microseconds = (least * 1000) / envelopes.length;
  return `${microseconds.toFixed(1)} us a record of ${envelopes.length}, least of ${runs}: ${navigator.userAgent}`;
}

const body = await timed().catch((error) => `FAILED ${error}`);
await fetch("/", { method: "POST", body });

// Begins a browser without a window on a page with one script, and gives what the script posts.
import { spawn } from "node:child_process";
import { once } from "node:events";
import { mkdtempSync, readFileSync, rmSync } from "node:fs";
import { createServer } from "node:http";
import { tmpdir } from "node:os";
import { join } from "node:path";
import { setTimeout as after } from "node:timers/promises";

const PAGE =
  '<!doctype html><meta charset="utf-8"><title>weoldrin</title><script type="module" src="/page.js"></script>';
const TYPES = { js: "text/javascript", wasm: "application/wasm" };

/** What is at a path of the server: a file of these, which are bytes or where they lie, or one of the package. */
function bytesAt(path, files, folder) {
  if (path === "/") return Buffer.from(PAGE);
  const isOfPackage = /^\/package\/[\w./]+$/.test(path) && !path.includes("..");
  const file = files[path] ?? (isOfPackage ? join(folder, path.slice("/package/".length)) : null);
  return file instanceof Uint8Array ? file : readFileSync(file);
}

function typeOf(path) {
  return path === "/" ? "text/html" : (TYPES[path.split(".").at(-1)] ?? "text/plain");
}

/** The words that begin a browser with a profile of its own. */
function wordsOf(browser, profile) {
  return browser.includes("firefox")
    ? ["--headless", "--profile", profile, "--no-remote"]
    : ["--headless=new", "--no-sandbox", "--disable-gpu", `--user-data-dir=${profile}`];
}

/** Serves the files to one browser, and calls `answer` with what it posts. */
function serverOf(files, folder, answer) {
  return createServer((request, response) => {
    const [path] = request.url.split("?");
    if (request.method === "POST") {
      const parts = [];
      request.on("data", (it) => parts.push(it));
      request.on("end", () => {
        response.end();
        answer(Buffer.concat(parts).toString());
      });
      return;
    }
    try {
      const bytes = bytesAt(path, files, folder);
      response.writeHead(200, { "content-type": typeOf(path) }).end(bytes);
    } catch {
      response.writeHead(404).end();
    }
  });
}

/** Removes a browser's profile. Processes of the browser's own may write into it for a moment longer. */
async function removed(profile, tries = 100) {
  try {
    rmSync(profile, { recursive: true, force: true });
  } catch (error) {
    if (tries === 0) throw error;
    await after(100);
    await removed(profile, tries - 1);
  }
}

/**
 * What the page's script posts, or a text that begins with FAILED where the browser ends or is silent for so many
 * seconds. The script is `/page.js` of the files; the package in `folder` is served as `/package/`.
 */
export async function answerIn(browser, files, folder, seconds = 100) {
  const profile = mkdtempSync(join(tmpdir(), "weoldrin-"));
  let answer;
  const answered = new Promise((done) => (answer = done));
  const server = serverOf(files, folder, answer).listen(0, "127.0.0.1");
  await once(server, "listening");
  const address = `http://127.0.0.1:${server.address().port}/`;
  const process = spawn(browser, [...wordsOf(browser, profile), address], { stdio: "ignore" });
  const ended = new Promise((done) => process.on("close", done).on("error", done));
  process.on("error", (error) => answer(`FAILED ${error.message}`));
  process.on("close", (status, signal) => answer(`FAILED the browser ended: ${signal ?? status}`));
  const silence = setTimeout(() => answer(`FAILED it did not answer within ${seconds} seconds`), seconds * 1000);
  const said = await answered;
  clearTimeout(silence);
  process.kill("SIGKILL");
  await ended;
  server.closeAllConnections();
  server.close();
  await removed(profile);
  return said;
}

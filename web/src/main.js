/**
 * The page: what is dropped, chosen or named is judged by its thread, and shown.
 * @module
 */
import { comparing } from "./comparing.js";
import { at, fill, quoted } from "./dom.js";
import { chosen, dropped, fetched } from "./files.js";
import { showPanels } from "./panels.js";
import { proofs, proveOn } from "./proofs.js";
import { registry } from "./registry.js";
import { Fault, Thread, part } from "./thread.js";
import { cardOf, sentenceOf, tellProgress } from "./verdicts.js";

// It says that the scripts did not run.
at("unopened").remove();

const thread = new Thread();
const logs = [];
let shown;
let numbers = 0;
let signersTurn = 0;

function told(sentence) {
  at("said").textContent = sentence;
}

function trouble(sentence) {
  at("trouble").textContent = sentence;
  at("trouble").hidden = false;
}

const isJudged = ({ found }) => found?.taken > 0 || found?.refusal === null;
const isCheckpoint = ({ found }) => found?.kind === "checkpoint";
const isLog = (log) => log.found && !isCheckpoint(log);
const tellCompared = comparing(thread, () => logs.filter(isLog));
proofs(thread, () => shown);
registry(thread, { add, numbered: () => numbers++ });

/** What the page's own parts ask: a fault is told, and nothing is shown in its place. */
const asking = (ask, words) =>
  thread.ask(ask, words).catch((error) => {
    told(`That could not be looked up: ${quoted(error.message)}`);
    throw error;
  });

/** What an operator log says of who signed a checkpoint: nothing, where it is refused, or anyone can forge it. */
async function signerBy(by, { number }) {
  if (by.found.refusal) return { by, state: "refused" };
  if (by.found.toys) return { by, state: "toys" };
  const found = await thread.ask("signer", { number, operators: by.number }).catch((error) => ({
    state: "broken",
    fault: error.told ?? { name: "Broken", sentence: error.message },
  }));
  return { by, ...found };
}

/** Asks who signed each checkpoint, by each operator log that there is. */
async function tellSigners() {
  const mine = ++signersTurn;
  const operators = logs.filter(({ found }) => found?.kind === "operator");
  for (const log of logs.filter(isCheckpoint)) {
    const signers = [];
    for (const by of operators) signers.push(await signerBy(by, log));
    if (mine !== signersTurn) return;
    log.signers = signers;
  }
  list();
}

function show(log) {
  shown = log;
  at("shown").hidden = !log;
  if (log) showPanels({ ...log, ask: asking }, at("tabs"), at("panels"));
  else fill(at("panels"));
  list();
}

function forget(log) {
  logs.splice(logs.indexOf(log), 1);
  void thread.ask("forget", { number: log.number });
  told(`${quoted(log.name)} was removed.`);
  if (shown === log) show(logs.find(isJudged));
  list();
  tellCompared();
  void tellSigners();
  at("results").focus();
}

/** Puts the focus back on the button that had it, where that was made anew, or on the list where it is gone. */
function refocused(number, text) {
  const card = at("verdicts").querySelector(`[data-number="${number}"]`);
  const again = [...(card?.querySelectorAll("button, summary") ?? [])].find((it) => it.textContent === text);
  (again ?? at("results")).focus();
}

function list() {
  const had = document.activeElement;
  const ofCard = had?.closest("#verdicts [data-number]")?.dataset.number;
  const cards = logs.map((log) =>
    cardOf(log, {
      isShown: log === shown,
      show: () => {
        show(log);
        at("shown").scrollIntoView();
        document.querySelector("[role=tab][aria-selected=true]").focus();
      },
      forget: () => forget(log),
      prove: () => proveOn(log.found.text),
      again: (changed) => void check(log, { ...log.asked, ...changed }),
    }),
  );
  fill(at("verdicts"), ...cards);
  if (ofCard !== undefined) refocused(ofCard, had.textContent);
}

/** Takes a log up that was verified down to a registry's checkpoint, and shows it. */
function add(log) {
  logs.push(log);
  told(sentenceOf(log));
  show(log);
  tellCompared();
}

/** Judges a log, and shows its verdict once the answer on the whole file is there. */
async function check(log, asked) {
  Object.assign(log, { asked, found: undefined, fault: undefined, done: 0, total: 0 });
  const isCurrent = () => logs.includes(log) && log.asked === asked;
  list();
  try {
    const source = log.source.fault ? Promise.reject(new Fault(log.source.fault)) : log.source;
    const { file, bytes } = await source;
    const words = { number: log.number, file, bytes, ...asked };
    const found = await thread.ask("judge", words, (done, total) => {
      Object.assign(log, { done, total });
      if (isCurrent()) tellProgress(log);
    });
    if (isCurrent()) log.found = found;
  } catch (error) {
    log.fault = error.told ?? { name: "Broken", sentence: error.message };
  }
  if (!isCurrent()) return;
  if (log.found?.byLibrary) {
    at("note").textContent =
      "This page was not served safely (by HTTPS, or from localhost), so the browser has no WebCrypto for it. The " +
      "library verifies the signatures, which takes longer.";
    at("note").hidden = false;
  }
  const isAsked = isCheckpoint(log) || log.found?.kind === "operator";
  if (isAsked) await tellSigners();
  const others = isAsked && isLog(log) ? logs.filter(isCheckpoint) : [];
  told([log, ...others].map(sentenceOf).join(" "));
  performance.mark("weoldrin-verdict");
  if (log.found && isJudged(log) && (!shown || shown === log)) show(log);
  else list();
  tellCompared();
}

function asked() {
  const kind = document.querySelector("input[name=kind]:checked").value;
  return { kind, toy: at("toy").checked };
}

/** Takes sources up, and judges them one after the other. */
async function take(sources) {
  const fresh = sources.map((source) => ({ number: numbers++, name: source.name, source }));
  logs.push(...fresh);
  const words = asked();
  told(fresh.length === 1 ? `Checking ${quoted(fresh[0].name)}.` : `Checking ${fresh.length} files.`);
  for (const log of fresh) await check(log, words);
  const judged = fresh.filter(isLog).map(({ number }) => number);
  if (judged.length === 2) tellCompared(judged);
}

function listen() {
  for (const name of ["dragenter", "dragover", "dragleave", "drop"]) {
    addEventListener(name, (event) => {
      event.preventDefault();
      at("drop").classList.toggle("over", name === "dragenter" || name === "dragover");
    });
  }
  addEventListener("drop", (event) => void take(dropped(event.dataTransfer)));
  at("files").addEventListener("change", ({ target }) => {
    void take(chosen(target.files));
    target.value = "";
  });
  at("whole").addEventListener("change", ({ target }) => document.body.classList.toggle("whole", target.checked));
  at("by-address").addEventListener("submit", async (event) => {
    event.preventDefault();
    told("Fetching the log.");
    await take([await fetched(at("address").value)]);
  });
  at("example").addEventListener("click", async () => {
    const source = await part("example", "../examples/p256/package.hex").then(
      (bytes) => ({ name: "examples/p256/package.hex", bytes }),
      (error) => ({ name: "examples/p256/package.hex", fault: { name: "Address", why: error.message } }),
    );
    await take([source]);
  });
}

async function begin() {
  listen();
  try {
    const module = await part("module", "../dist/wasm/libwarg.wasm").then(
      (source) => ({ source }),
      (error) => ({ why: `${error.message}. Serve the whole repository, as tools/web does` }),
    );
    const { version } = await thread.ask("begin", module);
    at("version").textContent = `Version ${version}.`;
    performance.mark("weoldrin-ready");
  } catch (error) {
    trouble(quoted(error.message, 600));
  }
}

void begin();
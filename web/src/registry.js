/**
 * The part of the page that asks a registry for a package, and shows each step down to the registry's signed checkpoint
 * as it holds, or the first that does not. Nothing is said to be verified before the last one.
 * @module
 */
import { at, button, el, fill, idText, keyText, many, number, quoted, timeText } from "./dom.js";
import { faultText } from "./sentences.js";
import { forgetSeen, keep, seenOf } from "./seen.js";

// A registry serves the page as static/web/index.html.
const own = () => new URL("../../", document.baseURI);
const time = (seconds) => timeText(seconds * 1_000_000_000n);

/** What each step says that holds. */
const STEPS = {
  name: ({ logId }) => ["The name alone says the id of the log: ", idText(logId), "."],
  operators: ({ count, key }) => [
    `The operator log is lawful, and each signature belongs: ${many(count, "record")}, up to the one that the map of `,
    "the checkpoint has as its last. It begins with the key ",
    keyText(key),
    ".",
  ],
  signed: ({ keyId, length }) => [
    `The checkpoint of ${many(length, "leaf", "leaves")} is signed by a key that the operator log lets sign: `,
    keyText(keyId),
    ".",
  ],
  fresh: ({ before, age, time: at }) => [
    "The checkpoint is of ",
    time(at),
    `, which is ${many(age, "second")} ago`,
    before === null
      ? "."
      : `, and goes on from the one of ${many(before, "leaf", "leaves")} that this browser saw before.`,
  ],
  head: ({ recordId }) => ["Its map has this record as the log's last one: ", idText(recordId), "."],
  leaf: ({ place }) => [`The registry's log has a leaf of that record, at place ${number(place)}.`],
  records: ({ count }) => [
    `The package's log is lawful, and each signature belongs: ${many(count, "record")}, up to that one.`,
  ],
};

const step = (look, name, word, ...children) =>
  el("li", { class: `step ${look}`, "data-step": name }, el("strong", {}, `${word}: `), children);

/** What no page can know of the key that the operator log begins with. */
function keySaid({ key, isSeen }) {
  const before = isSeen
    ? "This browser saw the same key before."
    : "This browser has seen none of this registry before, so this one is taken as it comes.";
  return el(
    "p",
    { class: "box warn", id: "operator-key" },
    "No page can know whether this is the key of the right operators: ",
    el("code", {}, key),
    `. Compare it with the one that they give by another way. ${before}`,
  );
}

const VERDICTS = {
  verified: ({ name, count, head, length, time: at, place }) => [
    "good",
    `Verified: ${quoted(name)} has ${many(count, "record")} under a signed checkpoint of ` +
      `${many(length, "leaf", "leaves")}.`,
    ["The last one is ", idText(head), `, at place ${number(place)} of the registry's log; the checkpoint is of `],
    time(at),
  ],
  absent: ({ name, logId, length, time: at }) => [
    "warn",
    `Absent: the registry has no log of ${quoted(name)}, by a signed checkpoint of ` +
      `${many(length, "leaf", "leaves")}, which is proved.`,
    ["The log would be ", idText(logId), "; the checkpoint is of "],
    time(at),
  ],
};

/** The name and the sentence, as it can be shown, of what ended the steps. */
function faultOf({ told = { name: "Broken" }, message }) {
  if (told.isTold) return [told.name, quoted(told.sentence, 600)];
  if (told.name === "BadName") return ["no name", "a package's name is two words with a colon, such as example:math"];
  return ["not checked", told.name === "Broken" ? quoted(message) : faultText(told)];
}

/** The address of a registry that a text names, with a slash at its end; null where it names none. */
function addressOf(text) {
  try {
    const { protocol, origin, pathname } = text === "" ? own() : new URL(text);
    return /^https?:$/.test(protocol) ? `${origin}${pathname.replace(/\/*$/, "/")}` : null;
  } catch {
    return null;
  }
}

/** Whether the page is a registry's own: whether that answers where it would. */
async function isOwn() {
  if (!own().protocol.startsWith("http")) return false;
  try {
    const response = await fetch(new URL("v1/health", own()), { credentials: "omit", redirect: "error" });
    void response.body?.cancel();
    return response.ok && /^application\/json\b/.test(response.headers.get("Content-Type") ?? "");
  } catch {
    return false;
  }
}

/** Shows the part first where the page is a registry's, and wants no address of it there. */
async function place() {
  const isServed = await isOwn();
  at("other").open = !isServed;
  at("registry").required = !isServed;
  if (!isServed) return;
  at("registry").placeholder = own().href;
  if (!at("verify").contains(document.activeElement)) at("open").before(at("verify"));
}

class Shown {
  #told = at("verify-said");
  // It changes too often to be read out.
  #read = at("verify-read");
  #steps = at("steps");
  #beside = at("verified");

  #clear(sentence) {
    this.#told.textContent = sentence;
    for (const it of [this.#read, this.#steps, this.#beside]) fill(it);
  }

  begin(name, address) {
    this.#clear(`Asking ${quoted(address, 120)} for ${quoted(name, 130)}.`);
  }

  /** A step that holds, or how many records were read. */
  hear(found) {
    if (found.name === "again") this.#clear("A newer checkpoint came: the steps are taken anew under it.");
    else if (found.name === "reading") this.#read.textContent = `${many(found.count, "record")} read so far.`;
    else this.#steps.append(step("good", found.name, "holds", STEPS[found.name](found)));
    if (found.name === "operators") fill(this.#beside, keySaid(found));
  }

  end(name, found) {
    const [look, sentence, ...more] = VERDICTS[found.state]({ name, ...found });
    fill(this.#read);
    this.#told.textContent = sentence;
    this.#beside.prepend(el("p", { class: `box ${look}`, "data-verdict": found.state }, sentence, " ", more, "."));
  }

  fail(error, forget) {
    const [name, sentence] = faultOf(error);
    fill(this.#read);
    this.#told.textContent = `Not verified. ${name}: ${sentence}.`;
    this.#steps.append(step("bad", "failed", name, el("bdi", { class: "said" }, sentence), "."));
    if (forget) this.#beside.append(el("p", {}, button("Forget what this browser saw of this registry", forget)));
  }
}

/** The part of the page: `add` takes the log that was verified, and `numbered` gives a number for it. */
export function registry(thread, { add, numbered }) {
  const shown = new Shown();
  let turn = 0;
  async function verify(name, address) {
    const [mine, log] = [++turn, numbered()];
    shown.begin(name, address);
    const heard = (found) => mine === turn && shown.hear(found);
    const seen = seenOf(address);
    try {
      const found = await thread.ask("verify", { number: log, name, address, seen }, heard);
      if (mine !== turn) return void thread.ask("forget", { number: log });
      keep(address, found);
      shown.end(name, found);
      if (found.log) add({ number: log, name, found: found.log });
    } catch (error) {
      const forget = seen && (() => (forgetSeen(address), void verify(name, address)));
      if (mine !== turn) return;
      shown.fail(error, forget);
    }
    performance.mark("weoldrin-verified");
  }
  at("verify-form").addEventListener("submit", (event) => {
    event.preventDefault();
    const address = addressOf(at("registry").value.trim());
    if (address) void verify(at("package").value.trim(), address);
    else at("verify-said").textContent = "That is no address of a registry: such begin with https:// or http://.";
  });
  void place();
}

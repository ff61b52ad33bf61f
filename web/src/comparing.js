/**
 * Two logs side by side: where they part.
 * @module
 */
import { at, el, fill, many, quoted, said as saidText } from "./dom.js";
import { recordItem } from "./panels.js";
import { faultText, relationText } from "./sentences.js";

// So many records before the place where they part are shown, and so many behind it of each.
const [BEFORE, BEHIND] = [3, 20];

const option = ({ number, name }, chosen) =>
  el("option", { value: number, selected: number === chosen }, quoted(name, 80));

/** Why two logs can't be compared, or an empty text. */
function hindrance(left, right) {
  const refused = [left, right].find(({ found }) => found.refusal);
  if (refused) return `${quoted(refused.name)} is refused, so it is compared with nothing.`;
  if (left.found.kind !== right.found.kind) return "One is the log of a package, and one that of operators.";
  return left === right ? "Choose two logs." : "";
}

function side(title, log, records, length, place) {
  const rest = length - place - records.length;
  return el(
    "section",
    { "aria-label": `${title} log` },
    el("h3", {}, `${title}: `, saidText(log.name)),
    records.length
      ? el("ol", { class: "line plain", start: place }, records.map(recordItem))
      : el("p", {}, "It has no further record."),
    rest > 0 && el("p", {}, `and ${many(rest, "more record")}.`),
  );
}

function shownComparison(found, left, right) {
  const { relation, common, sides, lengths } = found;
  const place = relation === "same" ? lengths[0] : found.left;
  const other = relation === "collision" ? found.right : place;
  return [
    common.length > 0 && el("h3", {}, `The ${place > common.length ? "last " : ""}records that both have`),
    common.length > 0 && el("ol", { class: "line plain common", start: place - common.length }, common.map(recordItem)),
    relation !== "same" &&
      el(
        "div",
        { class: "sides" },
        side("Left", left, sides[0], lengths[0], place),
        side("Right", right, sides[1], lengths[1], other),
      ),
  ];
}

/** The part of the page that compares; `logs` gives those that can be chosen. */
export function comparing(thread, logs) {
  const [left, right, said, box] = ["left", "right", "compare-said", "compared"].map(at);
  let turn = 0;

  // The sentence is read out, and what stands below it is not.
  function tell(look, sentence, ...shown) {
    fill(said, el("span", { class: `box ${look}` }, sentence));
    fill(box, ...shown);
  }

  async function compare() {
    const mine = ++turn;
    const chosen = [left, right].map((it) => logs().find(({ number }) => String(number) === it.value));
    if (chosen.includes(undefined)) return;
    const why = hindrance(...chosen);
    if (why) return tell("warn", why);
    const [{ number: one }, { number: other }] = chosen;
    try {
      const found = await thread.ask("compare", { left: one, right: other, before: BEFORE, count: BEHIND });
      if (mine === turn) tell(...relationText(found), ...shownComparison(found, ...chosen));
    } catch (error) {
      if (mine === turn) tell("warn", faultText(error.told ?? { name: "Broken", sentence: error.message }));
    }
  }

  left.addEventListener("change", compare);
  right.addEventListener("change", compare);
  return (wanted = []) => {
    const those = logs();
    at("compare").hidden = those.length < 2;
    const had = [left, right].map((it) => those.find(({ number }) => String(number) === it.value)?.number);
    const [one = had[0] ?? those[0]?.number, other = had[1]] = wanted;
    const isOther = other !== undefined && other !== one;
    const second = isOther ? other : those.findLast(({ number }) => number !== one)?.number;
    fill(left, ...those.map((it) => option(it, one)));
    fill(right, ...those.map((it) => option(it, second)));
    if (those.length >= 2) void compare();
    else for (const it of [said, box]) fill(it);
  };
}

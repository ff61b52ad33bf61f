/**
 * What is in a log: its records as a time line, its keys with the tree of grants, its releases or its namespaces. Each
 * is a tab.
 * @module
 */
import {
  button,
  colored,
  el,
  fill,
  idText,
  keyText,
  many,
  number,
  quoted,
  row,
  said,
  svg,
  table,
  timeText,
} from "./dom.js";
import { entriesOf, permissionsText } from "./entries.js";
import { paged } from "./paging.js";

const [RECORDS, ROWS, HOLDERS] = [100, 100, 100];
// Rows of a tree further in than this stand no further right.
const DEEPEST = 8;

/** A record of the time line. */
export function recordItem(record) {
  const { place, id, isRead, signer, time } = record;
  const head = isRead
    ? [timeText(time), el("span", { class: "by" }, "signed by ", keyText(signer))]
    : [el("span", {}, "a record that can't be read")];
  const top = el("div", { class: "row head" }, el("b", { class: "number" }, number(place)), head, id && idText(id));
  return colored(el("li", { class: isRead ? "record signed" : "record" }, top, entriesOf(record)), signer ?? "");
}

/** How many records there are over time, as a picture of columns. */
function picture({ columns, span: [first, last] }) {
  const most = Math.max(...columns);
  const bars = columns.map((count, place) => {
    const height = count ? Math.max(2, (count / most) * 40) : 0;
    return svg("rect", { x: place * 10 + 1, y: 40 - height, width: 8, height });
  });
  const label = `Records over time: at most ${many(most, "record")} in one of ${many(columns.length, "column")}`;
  const size = { viewBox: `0 0 ${columns.length * 10} 40`, preserveAspectRatio: "none" };
  const words = { ...size, role: "img", "aria-label": label, class: "columns" };
  return el(
    "figure",
    {},
    svg("svg", words, ...bars),
    el("figcaption", { class: "row spread" }, timeText(first), timeText(last)),
  );
}

function recordsPanel({ thread, number: log, found, ask }) {
  const facts = el("div", {});
  const load = async (from, count) => ({
    total: found.taken,
    rows: await ask("records", { number: log, from, count }),
  });
  const list = paged({
    name: "records",
    size: RECORDS,
    load,
    draw: (rows, from) => el("ol", { class: "line plain", start: from, "aria-label": "Records" }, rows.map(recordItem)),
  });
  ask("summary", { number: log }).then((summary) => {
    const { keys, signers } = summary;
    const signed = `signed by ${number(signers)} of the ${many(keys, "key")} that it names`;
    const text = el("p", {}, `${many(found.taken, "record")}, ${signed}.`);
    const [first, last] = summary.span;
    fill(facts, text, first < last && picture(summary));
  });
  void list.go(0);
  return [facts, list.node];
}

const keyRow = ({ id, key, permissions, signed }) =>
  row(
    [keyText(id), key === null ? null : el("div", { class: "small" }, said(key))],
    [
      ["may", permissionsText(permissions)],
      ["signed", many(signed, "record")],
    ],
  );

function branchRow({ level, record, entry, by, to, time, isInit, holds }) {
  const row = el(
    "li",
    { class: holds ? "holds" : "lost", "data-level": Math.min(level, DEEPEST) },
    el("span", { class: "hidden" }, `Level ${level + 1}: `),
    keyText(to),
    isInit ? " began the log" : [" by ", keyText(by)],
    el("span", { class: "small" }, ` in entry ${number(entry)} of record ${number(record)}, `, timeText(time)),
    holds ? "" : el("em", {}, ", and lost it since"),
  );
  row.style.setProperty("--level", String(Math.min(level, DEEPEST)));
  return row;
}

function treeOf({ number: log, found, ask }) {
  const [count, tree] = [el("p", { role: "status" }), el("div")];
  const select = el("select", {}, found.permissions.map((it) => el("option", { value: it }, it)));
  let most = HOLDERS;
  async function show() {
    const permission = select.value;
    fill(count, "Looking up who gave it to whom.");
    fill(tree);
    const { rows, holders, shown } = await ask("tree", { number: log, permission, most });
    if (select.value !== permission) return;
    const list = paged({
      name: "grants",
      size: ROWS,
      load: async (from, count) => ({ total: rows.length, rows: rows.slice(from, from + count) }),
      draw: (some, from) => el("ol", { class: "tree plain", start: from, "aria-label": "Grants" }, some.map(branchRow)),
    });
    await list.go(0);
    const more = holders > shown && button(`Look up ${number(HOLDERS)} more`, () => ((most += HOLDERS), show()));
    const rest = holders > shown ? `; ${number(shown)} are shown` : "";
    fill(count, `${many(holders, "key")} ${holders === 1 ? "holds" : "hold"} it${rest}.`);
    fill(tree, list.node, more);
  }
  select.addEventListener("change", () => {
    most = HOLDERS;
    void show();
  });
  void show();
  return [el("h3", {}, "Who gave it to whom"), el("p", {}, el("label", {}, "Permission ", select)), count, tree];
}

function keysPanel(log) {
  const list = paged({
    name: "keys",
    size: ROWS,
    load: (from, count) => log.ask("keys", { number: log.number, from, count }),
    draw: (rows) => table("Who holds what, at the end of the log", ["Key", "May", "Signed"], rows.map(keyRow)),
  });
  void list.go(0);
  return [list.node, treeOf(log)];
}

function releaseRow({ version, content, yanked, yankedBy, yankedTimestamp, by, timestamp, recordId }) {
  const inRecord = el("div", { class: "small" }, "in ", idText(recordId));
  const cells = [
    ["released", timeText(timestamp), " by ", keyText(by), inRecord],
    yanked ? ["yanked", timeText(yankedTimestamp), " by ", keyText(yankedBy)] : ["content", idText(content)],
  ];
  const flag = yanked && el("strong", { class: "flag" }, " yanked");
  return row([said(version), flag], cells, { class: yanked && "yanked" });
}

function latestOf({ number: log, ask }) {
  const asked = el("input", { type: "text", value: "*", spellcheck: "false", autocomplete: "off" });
  const answer = el("output", {});
  const label = el("label", {}, "Greatest release that meets ", asked);
  const form = el("form", { class: "row" }, label, el("button", { type: "submit" }, "Look up"), answer);
  form.addEventListener("submit", async (event) => {
    event.preventDefault();
    try {
      const found = await ask("latest", { number: log, requirement: asked.value });
      fill(answer, ...(found ? [said(found.version), " with the content ", idText(found.content)] : ["none"]));
    } catch (error) {
      fill(answer, quoted(error.message));
    }
  });
  return form;
}

const RELEASE_HEADS = ["Version", "Released", "Content, or the yank"];

function releasesPanel(log) {
  const list = paged({
    name: "releases",
    size: ROWS,
    load: (from, count) => log.ask("releases", { number: log.number, from, count }),
    draw: (rows) =>
      rows.length
        ? table("Releases, in the order of the log", RELEASE_HEADS, rows.map(releaseRow))
        : el("p", {}, "Nothing was released."),
  });
  void list.go(0);
  return [latestOf(log), list.node];
}

function namespaceRow({ name, state }) {
  const from = state?.importedFrom ?? null;
  const is = state === null ? "not taken" : from === null ? "defined" : ["imported from ", said(from)];
  return row(said(name), [["is", is]]);
}

function namespacesPanel(log) {
  const list = paged({
    name: "namespaces",
    size: ROWS,
    load: (from, count) => log.ask("namespaces", { number: log.number, from, count }),
    draw: (rows) =>
      rows.length
        ? table("Namespaces", ["Namespace", "Is"], rows.map(namespaceRow))
        : el("p", {}, "There is no namespace."),
  });
  void list.go(0);
  return [list.node];
}

const PANELS = {
  package: [
    ["records", "Records", recordsPanel],
    ["keys", "Keys and grants", keysPanel],
    ["releases", "Releases", releasesPanel],
  ],
  operator: [
    ["records", "Records", recordsPanel],
    ["keys", "Keys and grants", keysPanel],
    ["namespaces", "Namespaces", namespacesPanel],
  ],
};

/** The tabs of a log, by the pattern of ARIA: arrows move, and one tab of them takes the key that leads on. */
export function showPanels(log, tabs, panels) {
  const parts = PANELS[log.found.kind].map(([word, title, fillPanel]) => {
    const [ofTab, ofPanel] = [`tab-${word}`, `panel-${word}`];
    const tab = el("button", { type: "button", role: "tab", id: ofTab, "aria-controls": ofPanel }, title);
    const panel = el("div", { role: "tabpanel", id: ofPanel, "aria-labelledby": ofTab, tabindex: "0" });
    return { tab, panel, fillPanel, isFilled: false };
  });
  const choose = (chosen) => {
    for (const it of parts) {
      const isChosen = it === chosen;
      it.tab.setAttribute("aria-selected", String(isChosen));
      it.tab.tabIndex = isChosen ? 0 : -1;
      it.panel.hidden = !isChosen;
    }
    if (!chosen.isFilled) fill(chosen.panel, ...chosen.fillPanel(log));
    chosen.isFilled = true;
  };
  parts.forEach((it, place) => {
    it.tab.addEventListener("click", () => choose(it));
    it.tab.addEventListener("keydown", (event) => {
      const last = parts.length - 1;
      const [left, right] = [place === 0 ? last : place - 1, place === last ? 0 : place + 1];
      const to = { ArrowRight: right, ArrowLeft: left, Home: 0, End: last }[event.key];
      if (to === undefined) return;
      event.preventDefault();
      const next = parts[to];
      choose(next);
      next.tab.focus();
    });
  });
  fill(tabs, ...parts.map(({ tab }) => tab));
  fill(panels, ...parts.map(({ panel }) => panel));
  choose(parts[0]);
}

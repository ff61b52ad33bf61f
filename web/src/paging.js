/**
 * Pages of long lists: so many rows are in the page at once, whatever is behind them.
 * @module
 */
import { button, el, fill, number } from "./dom.js";

/**
 * A list of pages. `load` gives `{ total, rows }` of the rows from a place on, at most `size`; `draw` makes the nodes
 * of rows, of which the first one has that place.
 */
export function paged({ name, size, load, draw }) {
  const status = el("span", { role: "status" });
  const body = el("div", { class: "page" });
  let [from, total, turn] = [0, 0, 0];
  const last = () => Math.max(0, Math.floor((total - 1) / size) * size);
  const place = el("input", {
    type: "text",
    inputmode: "numeric",
    autocomplete: "off",
    "aria-label": `Number in ${name} to go to`,
    class: "place",
  });
  const back = [button("First", () => go(0)), button("Previous", () => go(from - size))];
  const on = [button("Next", () => go(from + size)), button("Last", () => go(last()))];
  for (const it of [...back, ...on]) it.setAttribute("aria-label", `${it.textContent} page of ${name}`);
  const form = el("form", { class: "row" }, place, el("button", { type: "submit" }, "Go"));
  form.addEventListener("submit", (event) => {
    event.preventDefault();
    const said = place.value.trim();
    if (/^[0-9]{1,15}$/.test(said)) void go(Math.floor(Number(said) / size) * size);
  });
  const words = { class: "row pager", role: "group", "aria-label": `Pages of ${name}` };
  const bar = el("div", words, back, on, form, status);

  async function go(to) {
    const mine = ++turn;
    const found = await load(Math.max(0, to), size);
    // Of two pages that were asked for, the later one is shown.
    if (mine !== turn) return;
    ({ total } = found);
    if (to > last()) return go(last());
    from = Math.max(0, to);
    bar.hidden = total <= size;
    const isFirst = from === 0;
    const isLast = from + size >= total;
    // A button that is disabled loses the focus, so these are only said to be.
    for (const it of back) it.setAttribute("aria-disabled", String(isFirst));
    for (const it of on) it.setAttribute("aria-disabled", String(isLast));
    const end = Math.min(total, from + size);
    status.textContent = total ? `${number(from)} to ${number(end - 1)} of ${number(total)}` : "";
    fill(body, draw(found.rows, from, found));
  }
  return { node: el("div", {}, bar, body), go };
}

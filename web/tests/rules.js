// What a reader of screens, a keyboard and a narrow page need, as rules that can be counted: it gives what breaks them.
// The accessible names are by the ways that this page has: a label, aria-label, aria-labelledby, what stands inside.
const found = [];
const tell = (node, what) => found.push(`${what}: ${node.outerHTML.slice(0, 160)}`);
const isShown = (node) => node.checkVisibility();
const all = (selector) => [...document.querySelectorAll(selector)].filter(isShown);

function nameOf(node) {
  const by = node.getAttribute("aria-labelledby");
  if (by) return by.split(" ").map((it) => document.getElementById(it)?.textContent ?? "").join(" ").trim();
  const label = node.getAttribute("aria-label") ?? [...(node.labels ?? [])].map((it) => it.textContent).join(" ");
  return (label || (node.matches("button, a, [role=tab], summary, legend, caption") ? node.textContent : "")).trim();
}

const NAMED = "button, a, input, select, textarea, summary, section, progress, [role^=tab], [role=group]";
for (const node of all(NAMED)) if (!nameOf(node)) tell(node, "no name");
for (const node of all("img:not([aria-label]), svg:not([aria-label])")) tell(node, "no text");
for (const node of all("[aria-controls], [aria-labelledby], [aria-describedby], label[for]")) {
  for (const name of ["aria-controls", "aria-labelledby", "aria-describedby", "for"]) {
    for (const id of (node.getAttribute(name) ?? "").split(" ")) {
      if (id && !document.getElementById(id)) tell(node, `${name} leads nowhere`);
    }
  }
}
const ids = [...document.querySelectorAll("[id]")].map((it) => it.id);
ids.filter((it, place) => ids.indexOf(it) !== place).forEach((it) => found.push(`an id twice: ${it}`));
let level = 0;
for (const node of all("h1, h2, h3, h4, h5, h6")) {
  const own = Number(node.tagName[1]);
  if (own > level + 1) tell(node, "a level of headings is left out");
  level = own;
}
for (const [selector, count] of [["main", 1], ["h1", 1], ["body > header", 1], ["body > footer", 1]]) {
  if (all(selector).length !== count) found.push(`not ${count} of ${selector}`);
}
if (!document.documentElement.lang || !document.title) found.push("no language, or no title");
if (all("[tabindex]").some((it) => it.tabIndex > 0)) found.push("an order of its own for the keyboard");
for (const node of all("ul > *, ol > *")) if (node.tagName !== "LI") tell(node, "no item of a list");
for (const node of all("[role=tablist]")) {
  const tabs = [...node.children];
  if (tabs.some((it) => it.getAttribute("role") !== "tab")) tell(node, "no tab");
  if (tabs.filter((it) => it.tabIndex === 0).length !== 1) tell(node, "not one tab that the keyboard reaches");
}
for (const node of all("button, a, input:not([type=radio], [type=checkbox]), select")) {
  const { width, height } = node.getBoundingClientRect();
  if (!node.matches(".skip") && (width < 24 || height < 24)) tell(node, `of ${width} by ${height} pixels`);
}

// Contrast, by WCAG 2: each text with what stands behind it.
function channels(color) {
  return color.match(/[\d.]+/g).map(Number);
}

function light(color) {
  const [red, green, blue] = channels(color)
    .slice(0, 3)
    .map((it) => it / 255)
    .map((it) => (it <= 0.04045 ? it / 12.92 : ((it + 0.055) / 1.055) ** 2.4));
  return 0.2126 * red + 0.7152 * green + 0.0722 * blue;
}

function behind(node) {
  for (let it = node; it; it = it.parentElement) {
    const color = getComputedStyle(it).backgroundColor;
    if ((channels(color)[3] ?? 1) > 0) return color;
  }
  return getComputedStyle(document.documentElement).backgroundColor;
}

const walker = document.createTreeWalker(document.body, NodeFilter.SHOW_TEXT);
for (let text; (text = walker.nextNode()); ) {
  const node = text.parentElement;
  if (!text.data.trim() || !isShown(node) || node.matches("option, .skip, script, style")) continue;
  const [one, other] = [light(getComputedStyle(node).color), light(behind(node))].sort((a, b) => b - a);
  const contrast = (one + 0.05) / (other + 0.05);
  if (contrast < 4.5) tell(node, `a contrast of ${contrast.toFixed(2)}`);
}
const wide = document.documentElement.scrollWidth;
if (wide > innerWidth) found.push(`the page is ${wide} pixels wide, and the window ${innerWidth}`);
return [...new Set(found)];

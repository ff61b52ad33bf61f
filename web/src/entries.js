/**
 * What a record's entries say, in words.
 * @module
 */
import { el, idText, keyText, many, said } from "./dom.js";

/** Permissions in words. */
export function permissionsText(names) {
  return names.length ? names.join(", ") : "nothing";
}

const ENTRIES = {
  init: ({ id }) => ["begins the log with ", keyText(id)],
  grant: ({ id, permissions }) => ["grants ", el("b", {}, permissionsText(permissions)), " to ", keyText(id)],
  revoke: ({ id, permissions }) => ["takes ", el("b", {}, permissionsText(permissions)), " from ", keyText(id)],
  release: ({ version, content }) => ["releases ", el("b", {}, said(version)), " with the content ", idText(content)],
  yank: ({ version }) => ["yanks ", el("b", {}, said(version))],
  define: ({ name }) => ["defines the namespace ", el("b", {}, said(name))],
  import: ({ name, registry }) => ["imports the namespace ", el("b", {}, said(name)), " from ", said(registry)],
  none: () => ["says nothing"],
};

/** The entries of a record as a list. */
export function entriesOf({ entries, count, isRead, size }) {
  if (!isRead) return el("p", {}, `can't be read (${many(size, "byte")})`);
  const items = entries.map((it) => el("li", { class: it.what }, ENTRIES[it.what](it)));
  const rest = count - entries.length;
  if (rest > 0) items.push(el("li", {}, `and ${many(rest, "more entry", "more entries")}`));
  return items.length ? el("ul", { class: "entries" }, items) : el("p", {}, "has no entries");
}

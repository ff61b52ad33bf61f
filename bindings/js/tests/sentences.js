// What refusals say, by the rows of conformance/logs/refusals.rows.
import { blocks, rowOf, textOf, wordsOf } from "./rows.js";

const escaped = (text) => text.replace(/[.*+?^${}()|[\]\\]/g, "\\$&");

/** The sentence of each cause that has a row, also with other fields than the row's, and how many were compared. */
export class Sentences {
  constructor(path) {
    this.rows = new Map();
    this.forms = new Map();
    this.compared = new Map();
    for (const block of blocks(path)) {
      const { question, wanted } = rowOf(block.head.text);
      const sentence = textOf(wanted.replace(/^= /, ""));
      const [topic, name, ...fields] = wordsOf(question.replace(/^refusal /, ""));
      this.rows.set(question, sentence);
      const key = `${topic} ${name}`;
      if (!this.forms.has(key)) this.forms.set(key, this.#form(sentence, fields));
    }
  }

  // The pieces of a sentence: texts, and the numbers of the fields that it quotes.
  #form(sentence, fields) {
    let parts = [sentence];
    fields.forEach((field, place) => {
      if (!field) return;
      const pattern = new RegExp(`(?<![\\w{])${escaped(field)}(?![\\w}])`);
      parts = parts.flatMap((part) => {
        if (typeof part !== "string") return [part];
        return part.split(new RegExp(pattern, "g")).flatMap((it, at) => (at ? [place, it] : [it]));
      });
    });
    return parts;
  }

  /** The sentence of a cause; undefined if no row has the case. */
  of(topic, name, fields) {
    const form = this.forms.get(`${topic} ${name}`);
    return form?.map((it) => (typeof it === "number" ? fields[it] : it)).join("");
  }

  /** The case of a row that has the part of an envelope which a fault is of; undefined if there is none. */
  caseOfEnvelope(name) {
    const cases = [...this.forms.keys()].filter((it) => it.startsWith("envelope ")).map((it) => it.slice(9));
    return cases.find((it) => it.split(".")[0] === name.split(".")[0]);
  }

  /** Whether a sentence is the whole one of a cause. */
  isTold(topic, name, fields, sentence) {
    const key = `${topic} ${name}`;
    this.compared.set(key, (this.compared.get(key) ?? 0) + 1);
    return sentence === this.of(topic, name, fields);
  }

  /** Whether a sentence is the one of an error of this name, whatever its fields. If no row has it, it may be any. */
  isToldByName(kind, name, sentence) {
    const part = this.caseOfEnvelope(name);
    const key = part === undefined ? `${kind} ${name}` : `envelope ${part}`;
    const form = this.forms.get(key);
    if (!form) return sentence !== "";
    this.compared.set(key, (this.compared.get(key) ?? 0) + 1);
    const pattern = form.map((it) => (typeof it === "number" ? ".*" : escaped(it))).join("");
    return new RegExp(`^${pattern}$`, "s").test(sentence);
  }

  /** The cases of refusals of both kinds, and of envelopes, whose sentence was not compared. */
  notCompared() {
    return [...this.forms.keys()].filter((it) => /^(package|operator|envelope) /.test(it) && !this.compared.has(it));
  }
}

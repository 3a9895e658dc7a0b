// Why there is no selection: the sentences of `registry why`, of which each opens, and lights up the packages that it speaks of.

import { counted, el, packageLink } from "./dom.js";
import { Folding, ROOM } from "./fold.js";
import { graph } from "./graph.js";

const A_NAME = /[a-z][a-z0-9_-]*/g;

export function refusal(told) {
  const view = new Refusal(told);
  return [el("p", { role: "status" }, `No selection meets this at revision ${told.revision}. Each sentence opens, and lights up what it speaks of.`),
    el("div", { class: "refusal" }, el("div", {}, view.tools, view.list, el("ul", { class: "hints" }, told.refused.hints.map((it) => el("li", {}, it)))),
      el("div", { class: "beside" }, view.graph.element))];
}

class Refusal {
  constructor(told) {
    Object.assign(this, told.refused);
    this.known = new Set(this.packages.map((it) => it.name));
    this.folding = new Folding(this.sentences);
    this.current = null;
    const labels = new Map([["", "the request"], ...this.packages.map((it) => [it.name, it.versions ? it.name : `${it.name} (not published)`])]);
    const needs = new Map(told.needs);
    this.graph = graph(labels, this.edges.map(([from, to]) => [from, to, from ? "" : needs.get(to) ?? ""]), { onpick: () => this.drop() });
    this.list = el("ol", { class: "sentences" });
    this.tools = el("p", {});
    this.items = new Map();
    this.show();
  }

  show() {
    const seen = this.folding.seen();
    this.list.replaceChildren(...seen.map((it) => {
      if (it.isBreak) return el("li", { class: "break", role: "presentation" });
      return it.fold === undefined ? this.item(it.at) : this.fold(it);
    }));
    const { hidden } = this.folding;
    const count = this.sentences.filter((it) => it.text).length;
    this.tools.replaceChildren(...(hidden ? [`${counted(hidden, "sentence")} of ${count.toLocaleString("en")} ${hidden === 1 ? "is" : "are"} folded. `,
      el("button", { type: "button", onclick: () => this.unfold() }, "Unfold all")] : []));
  }

  unfold() {
    this.folding.openAll();
    this.show();
  }

  fold({ fold, count }) {
    const open = () => {
      this.folding.open(fold, ROOM);
      this.show();
      this.items.get(fold).querySelector("button").focus();
    };
    return el("li", { class: "fold" }, el("button", { type: "button", onclick: open, "data-fold": fold },
      `${counted(count, "sentence")} that ${count === 1 ? "leads" : "lead"} to: ${this.sentences[fold].conclusion}`));
  }

  // A sentence is made once, so that it stays open while others unfold.
  item(at) {
    if (!this.items.has(at)) {
      const { text, number } = this.sentences[at];
      const reasons = el("div", { class: "reasons", id: `reasons-${at}`, hidden: true });
      const button = el("button", { type: "button", "aria-expanded": "false", "aria-controls": reasons.id, onclick: () => this.turn(at) },
        number ? el("span", { class: "cited" }, `(${number}) `) : null, this.worded(text));
      this.items.set(at, el("li", { class: "sentence", "data-place": at }, button, reasons));
    }
    return this.items.get(at);
  }

  // A text with its packages marked, so that they can be lit.
  worded(text) {
    const parts = [];
    let from = 0;
    for (const found of text.matchAll(A_NAME)) {
      if (!this.known.has(found[0])) continue;
      parts.push(text.slice(from, found.index), el("span", { class: "name", "data-name": found[0] }, found[0]));
      from = found.index + found[0].length;
    }
    return [...parts, text.slice(from)];
  }

  turn(at) {
    const button = this.item(at).querySelector("button");
    const isOpen = button.getAttribute("aria-expanded") !== "true";
    button.setAttribute("aria-expanded", isOpen);
    const reasons = this.item(at).querySelector(".reasons");
    reasons.hidden = !isOpen;
    if (isOpen && !reasons.childElementCount) reasons.append(...this.reasons(at));
    if (isOpen) this.light(at);
    else if (this.current === at) this.drop();
  }

  reasons(at) {
    const { facts, steps, names, conclusion } = this.sentences[at];
    const step = (it) => el("li", {}, this.worded(it.said), " ", el("button", { type: "button", class: "go", onclick: () => this.go(it.place) },
      this.sentences[it.place].number ? `sentence (${this.sentences[it.place].number})` : "its sentence"));
    return [el("p", {}, "It concludes: ", this.worded(conclusion), "."),
      el("ul", {}, facts.map((it) => el("li", {}, this.worded(it))), steps.map(step)),
      names.length ? el("p", {}, "It speaks of ", names.flatMap((it, place) => [place ? ", " : "", packageLink(it)]), ".") : null].filter(Boolean);
  }

  go(at) {
    this.folding.reveal(at);
    this.show();
    const button = this.item(at).querySelector("button");
    if (button.getAttribute("aria-expanded") !== "true") this.turn(at);
    this.light(at);
    button.focus();
    this.item(at).scrollIntoView({ block: "nearest" });
  }

  // ---- what is lit

  light(at) {
    this.mark(at, new Set(this.sentences[at].names));
    this.graph.light(new Set(this.sentences[at].names));
    this.graph.look(...this.sentences[at].names);
  }

  drop() {
    this.mark(null, new Set());
    if (this.graph) this.graph.light();
  }

  mark(at, names) {
    this.current = at;
    for (const it of this.items?.values() ?? []) {
      it.classList.toggle("current", it.dataset.place === String(at));
      for (const name of it.querySelectorAll(".name")) name.classList.toggle("lit", names.has(name.dataset.name));
    }
  }
}

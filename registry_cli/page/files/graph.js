// A graph of who needs whom that can be zoomed, moved and searched. A package that is picked lights up with all paths to it and from it.

import { el, packageLink, svg } from "./dom.js";
import { layout } from "./layout.js";

const EDGE = 12; // what is left free around it
const WHOLE = 0.6; // all of it is shown first where it is not smaller then;
const LEAST = 0.85; // else it has this size, or is as wide as its frame
const READABLE = 0.7; // and where one looks for something
const TALL = 0.6; // how much of the window it takes at most
const STEP = 1.3;
const MOST_TOLD = 12;

export class Graph {
  // `labels` are the labels by package, of which the request is the one without a name, `edges` triples of two packages and a text.
  constructor(labels, edges, options = {}) {
    Object.assign(this, { labels, edges, picked: null, isOnly: false, onpick: options.onpick ?? (() => {}) });
    this.drawing = svg("svg", { class: "graph", tabindex: 0, role: "group",
      "aria-label": `A graph of ${labels.size - 1} packages: arrow keys move it, + and - zoom, 0 shows all, and the field above finds a package` });
    this.told = el("div", { class: "told", role: "status" });
    this.element = el("div", { class: "graph-view" }, this.tools(), this.drawing, this.told);
    this.listen();
    this.draw();
    new ResizeObserver(() => this.resized()).observe(this.drawing);
    if (options.picked && labels.has(options.picked)) this.pick(options.picked);
    else this.tell();
  }

  tools() {
    const button = (said, label, act) => el("button", { type: "button", "aria-label": label, title: label, onclick: act }, said);
    const known = el("datalist", { id: "in-graph" }, [...this.labels.keys()].filter(Boolean).map((it) => el("option", { value: it })));
    this.field = el("input", { id: "find", type: "search", list: "in-graph", placeholder: "Find a package", "aria-label": "Find a package in this graph",
      autocomplete: "off", spellcheck: "false", oninput: () => this.find(this.field.value.trim().toLowerCase()),
      onkeydown: (event) => event.key === "Enter" && this.find(this.field.value.trim().toLowerCase(), true) });
    this.only = el("input", { id: "only", type: "checkbox", disabled: true, onchange: () => this.show(this.only.checked) });
    return el("div", { class: "tools" }, this.field, known, el("span", { class: "buttons" }, button("+", "Zoom in", () => this.zoom(STEP)),
      button("−", "Zoom out", () => this.zoom(1 / STEP)), button("All", "Show all of it", () => this.fit(true))),
    el("label", { for: "only" }, this.only, " only its paths"));
  }

  // ---- what is drawn

  draw() {
    const names = this.isOnly && this.picked !== null ? this.paths(this.picked).all : new Set(this.labels.keys());
    const labels = new Map([...this.labels].filter(([name]) => names.has(name)));
    const edges = this.edges.filter(([from, to]) => names.has(from) && names.has(to));
    this.layout = layout(labels, edges);
    const { places, back } = this.layout;
    this.lines = edges.map(([from, to, said]) => ({ from, to, drawn: this.way(places.get(from), places.get(to), back.has(`${from} ${to}`),
      `${this.labels.get(from)} needs ${to} ${said}`) }));
    this.nodes = new Map([...labels].map(([name, label]) => [name, this.node(name, label, places.get(name))]));
    this.drawing.replaceChildren(svg("g", {}, this.lines.map((it) => it.drawn)), svg("g", {}, [...this.nodes.values()]));
    this.drawing.style.height = `${Math.round(Math.min(TALL * window.innerHeight, Math.max(120, this.layout.high + 70)))}px`;
    this.fit();
    this.light();
  }

  way(from, to, isBack, said) {
    const [x, y, over, down] = [from.x + from.wide, from.y, to.x, to.y];
    const bend = isBack ? 60 : Math.max(24, (over - x) / 2);
    return svg("path", { class: isBack ? "way back" : "way", d: `M${x} ${y} C${x + bend} ${y} ${over - bend} ${down} ${over} ${down}` }, svg("title", {}, said));
  }

  node(name, label, { x, y, wide }) {
    return svg("g", { class: name ? "node" : "node request", "data-name": name, role: "button", tabindex: -1, "aria-label": label },
      svg("rect", { x, y: y - 10, width: wide, height: 20, rx: 4 }), svg("text", { x: x + 8, y: y + 4 }, label));
  }

  show(isOnly) {
    this.isOnly = this.only.checked = isOnly;
    this.draw();
    if (this.picked !== null) this.look(this.picked);
  }

  // ---- what is lit

  // All that a package is needed by and all that it needs, directly or not.
  paths(name) {
    const reached = (from, to) => {
      const found = new Set([name]);
      for (const it of found) for (const edge of this.edges) if (edge[from] === it) found.add(edge[to]);
      return found;
    };
    const [above, below] = [reached(1, 0), reached(0, 1)];
    return { above, below, all: new Set([...above, ...below]) };
  }

  // Lights these, or else what is picked with its paths.
  light(names = null) {
    const { above, below, all } = names ? { above: new Set(), below: names, all: names } : this.picked !== null ? this.paths(this.picked) : { all: new Set() };
    this.drawing.classList.toggle("dimmed", all.size > 0);
    for (const [name, node] of this.nodes) {
      node.classList.toggle("lit", all.has(name));
      node.classList.toggle("picked", !names && name === this.picked);
    }
    for (const { from, to, drawn } of this.lines) {
      drawn.classList.toggle("above", all.size > 0 && above.has(from) && above.has(to));
      drawn.classList.toggle("below", all.size > 0 && below.has(from) && below.has(to));
    }
  }

  pick(name) {
    this.picked = name;
    this.only.disabled = name === null;
    if (this.isOnly) this.draw();
    else this.light();
    if (name !== null) this.look(name);
    this.tell();
    this.onpick(name);
  }

  find(text, isSure = false) {
    const names = [...this.labels.keys()].filter((it) => it && it.includes(text));
    const found = names.find((it) => it === text) ?? (names.length === 1 || isSure ? names[0] : undefined);
    if (!text) this.pick(null);
    else if (found) this.pick(found);
    else this.light(new Set(names));
  }

  tell() {
    if (this.picked === null) {
      this.told.replaceChildren(el("p", { class: "faint" }, "A package that you pick lights up with all paths to it and from it."));
      return;
    }
    const button = (name) => el("button", { type: "button", class: "name", onclick: () => this.pick(name) }, this.labels.get(name));
    const row = (said, names) => el("p", {}, said, names.length ? names.slice(0, MOST_TOLD).flatMap((it) => [" ", button(it)]) : " nothing",
      names.length > MOST_TOLD ? ` and ${names.length - MOST_TOLD} more` : "");
    const label = this.labels.get(this.picked);
    this.told.replaceChildren(el("p", {}, el("strong", {}, this.picked ? packageLink(this.picked, label) : label), " ",
      el("button", { type: "button", onclick: () => this.pick(null) }, "Let go")),
    row("needs", this.edges.filter(([from]) => from === this.picked).map((it) => it[1])),
    ...(this.picked ? [row("needed by", this.edges.filter((it) => it[1] === this.picked).map(([from]) => from))] : []));
  }

  // ---- where one looks

  get size() {
    const box = this.drawing.getBoundingClientRect();
    return { across: box.width || 800, down: box.height || 500 };
  }

  // Shows all of it, or else what is at least readable, and no column less.
  fit(isAll = false) {
    const { across, down } = this.size;
    const columns = (across - 2 * EDGE) / this.layout.wide;
    const whole = Math.min(columns, (down - 2 * EDGE) / (this.layout.high + 20), 1.2);
    this.scale = isAll || whole >= WHOLE ? whole : Math.min(columns, LEAST);
    const [wide, high] = [across / this.scale, down / this.scale];
    // what has no room is cut off above and below what is needed first
    this.x = wide > this.layout.wide ? (this.layout.wide - wide) / 2 : -EDGE;
    const first = this.layout.places.get(this.picked ?? "") ?? [...this.layout.places.values()][0];
    this.y = high > this.layout.high + 20 ? (this.layout.high - high) / 2 : first.y - high / 2;
    this.isFitted = true;
    this.place();
  }

  // What nobody moved yet is fitted anew; so is what was drawn before it had a place on the page.
  resized() {
    if (this.isFitted || !this.isPlaced) {
      this.fit();
      if (this.picked !== null) this.look(this.picked);
    } else this.place();
    this.isPlaced = true;
  }

  place() {
    const { across, down } = this.size;
    this.drawing.setAttribute("viewBox", `${this.x} ${this.y} ${across / this.scale} ${down / this.scale}`);
  }

  // Zooms, with one point, from 0 to 1 across and down, where it is.
  zoom(times, across = 0.5, down = 0.5) {
    const scale = Math.min(4, Math.max(0.05, this.scale * times));
    const size = this.size;
    this.x += (size.across / this.scale - size.across / scale) * across;
    this.y += (size.down / this.scale - size.down / scale) * down;
    this.scale = scale;
    this.isFitted = false;
    this.place();
  }

  move(across, down) {
    this.x -= across / this.scale;
    this.y -= down / this.scale;
    this.isFitted = false;
    this.place();
  }

  // Moves to where these are seen, or the first of them where they are too far apart; and so near that they can be read.
  look(...names) {
    const places = names.map((it) => this.layout.places.get(it)).filter(Boolean);
    const { across, down } = this.size;
    const isNear = this.scale >= READABLE;
    this.scale = Math.max(this.scale, READABLE);
    const [wide, high] = [across / this.scale, down / this.scale];
    let box = boxOf(places);
    if (!places.length || (isNear && box.left >= this.x && box.right <= this.x + wide && box.top >= this.y && box.bottom <= this.y + high)) return;
    if (box.right - box.left > wide || box.bottom - box.top > high) box = boxOf(places.slice(0, 1));
    this.x = (box.left + box.right - wide) / 2;
    this.y = (box.top + box.bottom - high) / 2;
    this.isFitted = false;
    this.place();
  }

  listen() {
    let from = null;
    this.drawing.addEventListener("wheel", (event) => {
      event.preventDefault();
      const box = this.drawing.getBoundingClientRect();
      this.zoom(Math.exp(-event.deltaY / 400), (event.clientX - box.x) / box.width, (event.clientY - box.y) / box.height);
    }, { passive: false });
    this.drawing.addEventListener("pointerdown", (event) => {
      from = { x: event.clientX, y: event.clientY, way: 0, name: event.target.closest(".node")?.dataset.name };
      this.drawing.setPointerCapture(event.pointerId);
    });
    this.drawing.addEventListener("pointermove", (event) => {
      if (!from) return;
      const [across, down] = [event.clientX - from.x, event.clientY - from.y];
      Object.assign(from, { x: event.clientX, y: event.clientY, way: from.way + Math.abs(across) + Math.abs(down) });
      if (from.way > 4) this.move(across, down);
    });
    this.drawing.addEventListener("pointerup", () => {
      if (from && from.way <= 4) this.pick(from.name === undefined || from.name === this.picked ? null : from.name);
      from = null;
    });
    this.drawing.addEventListener("pointercancel", () => (from = null));
    this.drawing.addEventListener("keydown", (event) => this.key(event));
  }

  key(event) {
    const keys = { ArrowLeft: () => this.move(60, 0), ArrowRight: () => this.move(-60, 0), ArrowUp: () => this.move(0, 60), ArrowDown: () => this.move(0, -60),
      "+": () => this.zoom(STEP), "=": () => this.zoom(STEP), "-": () => this.zoom(1 / STEP), 0: () => this.fit(true), Escape: () => this.pick(null) };
    if (keys[event.key] && !event.ctrlKey && !event.metaKey && !event.altKey) {
      event.preventDefault();
      keys[event.key]();
    }
  }
}

function boxOf(places) {
  return { left: Math.min(...places.map((it) => it.x)), right: Math.max(...places.map((it) => it.x + it.wide)),
    top: Math.min(...places.map((it) => it.y)) - 10, bottom: Math.max(...places.map((it) => it.y)) + 10 };
}

export const graph = (labels, edges, options) => new Graph(labels, edges, options);

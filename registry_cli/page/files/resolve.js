// A form for needs, and what they are answered: a selection as a list, a tree or a graph, or why there is none.

import { PAGE, ask } from "./ask.js";
import { address, counted, el, packageLink } from "./dom.js";
import { graph } from "./graph.js";
import { refusal } from "./refusal.js";
import { tree } from "./tree.js";

const VIEWS = { list: "List", tree: "Tree", graph: "Graph" };
let last = {}; // so that another view of one selection takes no other search

export async function showResolve(at, shown) {
  const needs = at.fields.getAll("need");
  const heading = [el("h1", { tabindex: -1 }, "Resolve"), form(needs)];
  shown.title("Resolve");
  if (!needs.length) return heading;
  shown.title(needs.join(", "));
  const result = el("section", { id: "result", "aria-label": "The answer" }, el("p", { class: "faint", role: "status" }, "Searching .."));
  answer(at, shown, needs, result);
  return [...heading, result];
}

async function answer(at, shown, needs, result) {
  try {
    const told = await resolved(needs, shown.signal);
    shown.revision(told.revision);
    if (shown.signal.aborted) return;
    if (told.selected) result.replaceChildren(...selection(at, needs, told));
    else result.replaceChildren(...refusal(told));
  } catch (fault) {
    if (shown.signal.aborted) return;
    result.replaceChildren(el("p", { id: "fault", class: "fault", role: "alert" }, fault.message.replace(/[^.?!]$/, "$&.")));
    if (fault.field) mark(...fault.field);
  }
}

// Marks the field of the form that is at fault.
function mark(need, part) {
  const field = document.querySelectorAll("#needs li")[need]?.querySelector(`.${part}`);
  field?.setAttribute("aria-invalid", "true");
  field?.setAttribute("aria-describedby", "fault");
  field?.addEventListener("input", () => field.removeAttribute("aria-invalid"), { once: true });
}

async function resolved(needs, signal) {
  const { revision } = await ask("status", {}, signal);
  const asked = JSON.stringify([revision, needs]);
  if (last.asked !== asked) last = { asked, told: await ask("resolve", { need: needs, page: PAGE }, signal) };
  return last.told;
}

// ---- the form

function form(needs) {
  const rows = el("ul", { class: "needs" });
  const names = el("datalist", { id: "names" });
  const add = (need) => rows.append(row(need, names, rows));
  (needs.length ? needs : [""]).forEach(add);
  const send = (event) => {
    event.preventDefault();
    const typed = [...rows.children].map((it) => [...it.querySelectorAll("input")].map((field) => field.value.trim()));
    const need = typed.filter(([name]) => name).map(([name, requirement]) => (requirement ? `${name}@${requirement}` : name));
    const to = address("resolve", { need });
    last = {};
    if (to === location.hash) window.dispatchEvent(new HashChangeEvent("hashchange"));
    else location.hash = to;
  };
  const another = () => {
    add("");
    rows.lastElementChild.querySelector("input").focus();
  };
  return el("form", { id: "needs", onsubmit: send, "aria-label": "What is needed" }, rows, names,
    el("p", {}, el("button", { type: "button", onclick: another }, "Another package"), " ", el("button", { type: "submit", class: "main" }, "Resolve")));
}

function row(need, names, rows) {
  const at = need.search(/[@ ]/);
  const [name, requirement] = at < 0 ? [need, ""] : [need.slice(0, at), need.slice(at + 1)];
  const offer = async (event) => {
    const told = await ask("search", { text: event.target.value.trim() }).catch(() => ({ packages: [] }));
    names.replaceChildren(...told.packages.slice(0, 20).map((it) => el("option", { value: it.name })));
  };
  const plain = { autocomplete: "off", autocapitalize: "off", spellcheck: "false" };
  const field = el("input", { ...plain, class: "name", "aria-label": "Package", placeholder: "package", value: name, list: "names", maxlength: 64, oninput: offer });
  const drop = () => {
    if (rows.children.length > 1) made.remove();
    else made.querySelectorAll("input").forEach((it) => (it.value = ""));
    rows.querySelector("input").focus();
  };
  const made = el("li", {}, field,
    el("input", { ...plain, class: "requirement", "aria-label": "Requirement", placeholder: "any version", value: requirement, maxlength: 256 }),
    el("button", { type: "button", "aria-label": "Take this package away", title: "Take this package away", onclick: drop }, "×"));
  return made;
}

// ---- a selection

function selection(at, needs, told) {
  const view = VIEWS[at.fields.get("view")] ? at.fields.get("view") : "list";
  const links = Object.entries(VIEWS).map(([name, said]) =>
    el("a", { href: address("resolve", { need: needs, view: name }), "aria-current": name === view ? "page" : null }, said));
  const place = el("div", { class: "view" });
  const shownView = { list, tree, graph: selectionGraph }[view](told, place, at.fields.get("at"));
  const find = el("input", { id: "find", type: "search", list: "selected", placeholder: "Find a package", "aria-label": "Find a package in this selection",
    autocomplete: "off", spellcheck: "false", oninput: (event) => shownView.find(event.target.value.trim().toLowerCase()) });
  const known = el("datalist", { id: "selected" }, told.selected.map((it) => el("option", { value: it.name })));
  return [el("p", { role: "status" }, `${counted(told.selected.length, "package")} selected at revision ${told.revision}.`),
    el("div", { class: "tabs" }, el("nav", { "aria-label": "Ways to see it" }, links), view === "graph" ? null : find, known), place];
}

function list(told, place) {
  const users = new Map(told.selected.map((it) => [it.name, 0]));
  for (const it of told.selected) for (const [target] of it.needs) users.set(target, users.get(target) + 1);
  const rows = told.selected.map((it) => el("tr", { "data-name": it.name }, el("td", {}, packageLink(it.name)), el("td", { class: "version" }, it.version),
    el("td", { class: "version" }, it.newest ?? ""), el("td", { class: "number" }, it.needs.length), el("td", { class: "number" }, users.get(it.name))));
  const heads = ["Package", "Version", "Newest", "Needs", "Needed by"].map((it, at) => el("th", { scope: "col", class: at > 2 ? "number" : null }, it));
  place.append(el("table", { class: "selection" }, el("thead", {}, el("tr", {}, heads)), el("tbody", {}, rows)));
  return { find: (text) => rows.forEach((it) => (it.hidden = !it.dataset.name.includes(text))) };
}

function selectionGraph(told, place, picked) {
  const labels = new Map([["", "the request"], ...told.selected.map((it) => [it.name, `${it.name} ${it.version}`])]);
  const edges = [...told.needs.map(([name, requirement]) => ["", name, requirement]),
    ...told.selected.flatMap((it) => it.needs.map(([target, requirement]) => [it.name, target, requirement]))];
  // what is picked is part of the address, and no step of its own for the back button
  const need = told.needs.map((it) => it.join("@"));
  const onpick = (name) => history.replaceState(null, "", address("resolve", { need, view: "graph", at: name }));
  const drawn = graph(labels, edges, { picked, onpick });
  place.append(drawn.element);
  return drawn;
}

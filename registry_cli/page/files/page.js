// Which view is shown: each has an address of its own behind the #, so links and the back button lead where they say.

import { ask } from "./ask.js";
import { address, counted, el } from "./dom.js";
import { showPackage } from "./package.js";
import { showResolve } from "./resolve.js";
import { showSearch } from "./search.js";

const EACH = 3000; // milliseconds between two looks at the journal
const main = document.getElementById("main");
const text = document.getElementById("text");
const note = document.getElementById("note");
let leaving = new AbortController();
let shownRevision = null;
let toldFault = "";

const VIEWS = { "": showSearch, search: showSearch, package: showPackage, resolve: showResolve };

export function route() {
  const [path, query] = location.hash.replace(/^#\/?/, "").split("?");
  const [view, ...rest] = path.split("/");
  let name = rest.join("/");
  try {
    name = decodeURIComponent(name);
  } catch {
    // it is shown as it was typed
  }
  return { view, name, fields: new URLSearchParams(query) };
}

async function show() {
  leaving.abort();
  leaving = new AbortController();
  const signal = leaving.signal;
  const at = route();
  const isTyping = document.activeElement === text;
  if (!isTyping) text.value = at.view === "search" ? at.fields.get("text") ?? "" : "";
  for (const it of document.querySelectorAll("nav a")) {
    const isHere = it.hash === (at.view === "resolve" ? "#/resolve" : "#/");
    if (isHere) it.setAttribute("aria-current", "page");
    else it.removeAttribute("aria-current");
  }
  const shown = { signal, revision: (it) => (shownRevision = it), title: (it) => (document.title = it ? `${it} - registry` : "registry") };
  try {
    const view = VIEWS[at.view] ?? unknown;
    const parts = await view(at, shown);
    if (signal.aborted) return;
    main.replaceChildren(...[parts].flat().filter(Boolean));
  } catch (fault) {
    if (signal.aborted) return;
    main.replaceChildren(el("h1", { tabindex: -1 }, "This can't be shown"), el("p", { class: "fault", role: "alert" }, fault.message));
  }
  note.replaceChildren();
  if (!isTyping) {
    window.scrollTo(0, 0);
    main.querySelector("h1")?.focus({ preventScroll: true });
  }
}

function unknown() {
  return [el("h1", { tabindex: -1 }, "There is no such view"), el("p", {}, el("a", { href: "#/" }, "All packages"))];
}

// While a text is typed the address follows it, and the back button leads to what was there before.
function typed() {
  const to = address("search", { text: text.value.trim() });
  if (route().view === "search") history.replaceState(null, "", to);
  else history.pushState(null, "", to);
  show();
}

async function look() {
  if (document.hidden) return;
  let told;
  try {
    told = await ask("status");
  } catch (fault) {
    told = { fault: fault.message };
  }
  const about = document.getElementById("about");
  if (told.path) {
    about.replaceChildren(`${told.path}, revision ${told.revision}: ${counted(told.packages, "package")}, ${counted(told.versions, "version")}, `
      + `${counted(told.yanked, "yanked one")}. This page changes nothing.`, ...told.warnings.map((it) => el("p", { class: "warned" }, it)));
  }
  if (told.fault) {
    if (told.fault !== toldFault) note.replaceChildren(el("p", { class: "fault" }, told.fault));
    toldFault = told.fault;
  } else if (shownRevision !== null && told.revision !== shownRevision) {
    if (!note.querySelector("button")) {
      note.replaceChildren(el("p", {}, "The journal has changed. ", el("button", { type: "button", onclick: show }, "Show it as it is now")));
    }
  } else if (toldFault) {
    toldFault = "";
    note.replaceChildren();
  }
}

text.addEventListener("input", typed);
document.getElementById("search").addEventListener("submit", (event) => {
  event.preventDefault();
  main.querySelector("#found a")?.click();
  text.blur();
});
document.addEventListener("keydown", (event) => {
  if (event.key === "/" && !event.target.closest("input, textarea")) {
    event.preventDefault();
    text.focus();
  }
});
document.addEventListener("visibilitychange", look);
window.addEventListener("hashchange", () => {
  text.blur();
  show();
});
setInterval(look, EACH);
show();
look();

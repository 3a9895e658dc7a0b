// A selection as a tree of who needs whom. The needs of a package stand once; (*) marks it where it comes again.

import { el, packageLink } from "./dom.js";

const OPEN_AT_FIRST = 60; // packages up to which all branches are open

export function tree(told, place) {
  const packages = new Map(told.selected.map((it) => [it.name, it]));
  const branches = new Map(); // where the needs of a package stand
  const top = el("ul", { class: "tree" });
  const isOpen = told.selected.length <= OPEN_AT_FIRST;
  // without a stack of calls: a chain of needs may be long
  const waiting = told.needs.map(([name, requirement]) => ({ name, requirement, list: top, depth: 0 })).reverse();
  while (waiting.length) {
    const { name, requirement, list, depth } = waiting.pop();
    const it = packages.get(name);
    const said = [packageLink(name), " ", el("span", { class: "version" }, it.version), " ", el("span", { class: "faint" }, `as ${requirement}`)];
    if (!it.needs.length || branches.has(name)) {
      const title = `Where the needs of ${name} stand`;
      const again = it.needs.length ? el("button", { type: "button", class: "again", title, onclick: () => go(branches.get(name)) }, "(*)") : null;
      list.append(el("li", {}, el("span", { class: "leaf" }, said, " ", again)));
      continue;
    }
    const inner = el("ul", {});
    const branch = el("details", { open: isOpen || depth < 1, "data-name": name }, el("summary", {}, said), inner);
    branches.set(name, branch);
    list.append(el("li", {}, branch));
    waiting.push(...[...it.needs].sort().reverse().map(([target, wanted]) => ({ name: target, requirement: wanted, list: inner, depth: depth + 1 })));
  }
  const all = (open) => branches.forEach((it) => (it.open = open));
  place.append(el("p", {}, el("button", { type: "button", onclick: () => all(true) }, "Open all"), " ",
    el("button", { type: "button", onclick: () => all(false) }, "Close all")), el("div", { class: "wide" }, top));
  return { find: (text) => find(top, text) };
}

function reveal(it) {
  for (let above = it.parentElement?.closest("details"); above; above = above.parentElement?.closest("details")) above.open = true;
}

function go(branch) {
  reveal(branch);
  branch.open = true;
  branch.querySelector("summary").focus();
}

function find(top, text) {
  const found = [...top.querySelectorAll("a.package")].filter((it) => {
    const isFound = text !== "" && it.textContent.includes(text);
    it.classList.toggle("lit", isFound);
    return isFound;
  });
  found.forEach(reveal);
  found[0]?.scrollIntoView({ block: "nearest" });
}

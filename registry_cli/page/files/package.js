// One package: its versions with what they need, and who needs it.

import { ask } from "./ask.js";
import { address, counted, el, packageLink, shortened } from "./dom.js";

const MOST = 50; // rows that are shown at first

export async function showPackage(at, shown) {
  shown.title(at.name);
  const told = await ask("package", { name: at.name }, shown.signal);
  shown.revision(told.revision);
  return [el("h1", { tabindex: -1 }, told.name), summary(told), ...versions(told), ...users(told)];
}

function summary(told) {
  if (!told.newest) {
    return el("p", {}, `No version of ${told.name} is published. `, told.near ? ["Did you mean ", packageLink(told.near), "?"] : null);
  }
  const yanked = told.versions.filter((it) => it.yanked).length;
  const need = `${told.name}@^${told.newest.split("+")[0]}`;
  return el("p", {}, el("span", { class: "version" }, told.newest), `, ${counted(told.versions.length, "version")}${yanked ? `, ${yanked} yanked` : ""}. `,
    el("a", { href: address("resolve", { need }) }, `Resolve ${need}`));
}

function versions(told) {
  if (!told.versions.length) return [];
  const list = el("ol", { class: "versions" });
  return [el("h2", {}, "Versions"), ...shortened(list, told.versions, (it) => version(told, it), MOST, "version")];
}

function version(told, it) {
  const marks = [it.yanked ? el("span", { class: "mark" }, "yanked") : null, it.pre_release ? el("span", { class: "mark" }, "pre-release") : null];
  const head = [el("span", { class: "version" }, it.version), " ", ...marks, " "];
  if (!it.needs.length) return el("li", { class: it.yanked ? "yanked" : null }, el("p", { class: "alone" }, head, el("span", { class: "faint" }, "needs nothing")));
  const needs = it.needs.map(([name, requirement]) => el("li", {}, packageLink(name), " ", el("span", { class: "version" }, requirement)));
  return el("li", { class: it.yanked ? "yanked" : null },
    el("details", { open: it.version === told.newest }, el("summary", {}, head, el("span", { class: "faint" }, `needs ${counted(it.needs.length, "package")}`)),
      el("ul", { class: "rows" }, needs)));
}

function users(told) {
  if (!told.needed_by.length) return [el("h2", {}, "Who needs it"), el("p", { class: "faint" }, "No package does.")];
  const row = (it) => el("li", {}, packageLink(it.name), " ", el("span", { class: "version" }, it.version), " ",
    el("span", { class: "faint" }, "as "), el("span", { class: "version" }, it.requirement));
  const list = el("ul", { id: "users", class: "rows" });
  return [el("h2", {}, `Who needs it: ${counted(told.needed_by.length, "package")}`),
    el("p", { class: "faint" }, "Of each package its newest version that does."), ...shortened(list, told.needed_by, row, MOST, "package")];
}

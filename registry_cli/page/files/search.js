// The packages whose names have a text in them, and all of them where there is none.

import { ask } from "./ask.js";
import { address, counted, el, packageLink } from "./dom.js";

export async function showSearch(at, shown) {
  const text = at.fields.get("text") ?? "";
  const told = await ask("search", { text, before: at.fields.get("before") ?? 0 }, shown.signal);
  shown.revision(told.revision);
  shown.title(told.text);
  const heading = told.text ? `Packages with ${told.text} in their names` : "Packages";
  return [el("h1", { tabindex: -1 }, heading), el("p", { class: "faint", role: "status" }, said(told)),
    parts(told), el("ul", { id: "found", class: "rows" }, told.packages.map(row))];
}

// Where the parts before and behind this one are.
function parts({ text, found, before, most, packages }) {
  const link = (said, to) => el("a", { href: address("search", { text, before: to > 0 ? to : "" }) }, said);
  const last = before + packages.length;
  const links = [before > 0 ? link(`Previous ${Math.min(most, before)}`, before - most) : null, last < found ? link(`Next ${Math.min(most, found - last)}`, last) : null];
  return links.some(Boolean) ? el("nav", { id: "parts", "aria-label": "Parts of the list" }, ...links) : null;
}

function said(told) {
  if (!told.found) {
    return told.near ? ["There is none. Did you mean ", packageLink(told.near), "?"] : ["There is none."];
  }
  const { before, packages, found } = told;
  return [packages.length === found ? `${counted(found, "name")}.` : `${(before + 1).toLocaleString("en")} to ${(before + packages.length).toLocaleString("en")} of ${counted(found, "name")}.`];
}

function row(it) {
  return el("li", {}, packageLink(it.name), " ",
    it.newest ? [el("span", { class: "version" }, it.newest), " ", el("span", { class: "faint" }, counted(it.versions, "version"))]
      : el("span", { class: "mark" }, "needed, not published"));
}

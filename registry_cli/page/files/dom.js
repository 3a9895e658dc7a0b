// Elements made of texts. Nothing here, or anywhere on the page, reads a text as HTML.

const SVG = "http://www.w3.org/2000/svg";

function fill(made, attributes, children) {
  for (const [name, value] of Object.entries(attributes)) {
    if (name.startsWith("on")) made.addEventListener(name.slice(2), value);
    else if (value === true) made.setAttribute(name, "");
    else if (value !== false && value !== null && value !== undefined) made.setAttribute(name, value);
  }
  made.append(...children.flat().filter((it) => it !== null && it !== undefined && it !== false));
  return made;
}

export function el(tag, attributes = {}, ...children) {
  return fill(document.createElement(tag), attributes, children);
}

export function svg(tag, attributes = {}, ...children) {
  return fill(document.createElementNS(SVG, tag), attributes, children);
}

export function address(view, fields = {}) {
  const query = new URLSearchParams();
  for (const [name, value] of Object.entries(fields)) {
    for (const it of [value].flat()) if (it) query.append(name, it);
  }
  const text = query.toString();
  return `#/${view}${text ? "?" + text : ""}`;
}

export function packageLink(name, said = name) {
  return el("a", { href: `#/package/${encodeURIComponent(name)}`, class: "package" }, said);
}

export function counted(count, one, many = one + "s") {
  return `${count.toLocaleString("en")} ${count === 1 ? one : many}`;
}

// A list of which so many are shown at first, and the others on demand.
export function shortened(list, items, make, most, said) {
  let shown = 0;
  const more = el("button", { type: "button", class: "more", onclick: () => show(items.length) });
  function show(upTo) {
    const from = shown;
    shown = Math.min(upTo, items.length);
    list.append(...items.slice(from, shown).map(make));
    more.textContent = `Show ${counted(items.length - shown, `more ${said}`)}`;
    more.hidden = shown === items.length;
    if (from) list.children[from]?.querySelector("a, summary, button")?.focus();
  }
  show(most);
  return [list, more];
}

// Elements of the page. Whatever comes from the catalogue becomes a text node, never markup.

export const find = (id) => document.getElementById(id);

export const ready = (id) => find(id).content.cloneNode(true);

const maker = (space) => (tag, ...rest) => {
  const [name, ...classes] = tag.split(".");
  const node = document.createElementNS(space, name);
  if (classes.length > 0) node.setAttribute("class", classes.join(" "));
  if (rest[0]?.constructor === Object) {
    for (const [key, value] of Object.entries(rest.shift())) {
      if (typeof value === "function") node.addEventListener(key, value);
      else if (value || value === 0) node.setAttribute(key, value === true ? "" : value);
    }
  }
  node.append(...shownOf(rest));
  return node;
};

const shownOf = (children) => children.flat(9).filter((child) => child || child === 0);

// An element by tag and classes, with attributes (a function listens to its event) and children.
export const h = maker("http://www.w3.org/1999/xhtml");
export const svg = maker("http://www.w3.org/2000/svg");

// New children for a node. The focus stays on the id that had it.
export function show(node, ...children) {
  const id = node.contains(document.activeElement) && document.activeElement.id;
  node.replaceChildren(...shownOf(children));
  if (id) find(id)?.focus();
}

// A link where its scheme is safe to follow; else text alone.
export function outside(address, text) {
  const url = URL.canParse(address) && new URL(address);
  if (!url || !["http:", "https:", "mailto:"].includes(url.protocol)) return h("span", text === address ? text : `${text} (${address})`);
  return h("a", { href: url.href, target: "_blank", rel: "noopener noreferrer" }, text);
}

export const number = (n) => n.toLocaleString("en");

export const counted = (n, one, many = `${one}s`) => `${number(n)} ${n === 1 ? one : many}`;

export const section = (title, ...children) => h("section", h("h2", title), children);

export function paged(label, list, item) {
  const box = h("div.paged");
  const draw = (first) => {
    const end = Math.min(first + 50, list.length);
    const to = (text, start) => h("button", { id: `${label} ${text}`, disabled: start < 0 || start >= list.length, click: () => draw(start) }, text);
    show(box, h("ol.rows", { "aria-label": label }, list.slice(first, end).map(item)),
      list.length > 50 && h("p.pager",
        to("Back", first - 50), h("span", `${number(first + 1)} to ${number(end)} of ${number(list.length)}`), to("Next", first + 50)));
  };
  draw(0);
  return box;
}

export const listed = (title, list, item, none) =>
  section(`${title} (${number(list.length)})`, list.length > 0 ? paged(title, list, item) : h("p.none", none));

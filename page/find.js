// The first page: results of the search, with facets beside them.

import { catalogue, dot, link, listen, tagLinks, titleOf } from "./catalogue.js";
import { counted, find, h, number, ready, show } from "./dom.js";
import { address, kindName, shortName } from "./refs.js";
import { addressOf, FACETS, foremost, queryOf, search, toggled } from "./search.js";

const PAGE = 50;
const SHOWN = { kind: kindName, owner: titleOf };

const shown = (facet, value) => SHOWN[facet]?.(value) ?? value;

// A row of a list of entities.
export const result = (row) => h("li.result",
  h("div", h("a.title", { href: address(row.ref) }, dot(row.kind), row.title || row.name), row.title && h("span.name", shortName(row.ref)),
    row.description && h("p.about", row.description), row.tags.length > 0 && h("p.tags", tagLinks(row.tags.slice(0, 8)))),
  h("div.facts", h("span", [kindName(row.kind), row.type, row.lifecycle].filter(Boolean).join(" · ")), row.owner && link(row.owner)));

function facet(name, query, counts) {
  const chosen = query.chosen.get(name) ?? new Set();
  const values = foremost(counts, PAGE);
  const item = ([value, n]) => h("li", h("label", { change: () => { location.hash = addressOf(toggled(query, name, value)); } },
    h("input", { type: "checkbox", id: `${name}=${value}`, checked: chosen.has(value) }), h("span.value", shown(name, value)), h("span.n", number(n))));
  return values.length > 0 && h("fieldset", h("legend", FACETS[name]), h("ul", values.map(item)));
}

function order(query) {
  const label = ready("order");
  const box = label.querySelector("select");
  box.value = query.order;
  box.addEventListener("change", () => { location.hash = addressOf({ ...query, order: box.value, page: 1 }); });
  return label;
}

function pager(query, total) {
  const last = Math.ceil(total / PAGE);
  const to = (page, text) => (page < 1 || page > last ? h("span", text) : h("a", { href: addressOf({ ...query, page }) }, text));
  return last > 1 && h("nav.pager", { "aria-label": "Pages of results" },
    to(query.page - 1, "Back"), h("span", `Page ${number(query.page)} of ${number(last)}`), to(query.page + 1, "Next"));
}

function nothing() {
  const text = ready("empty");
  text.querySelector(".origin").textContent = location.origin;
  return text;
}

// Shows the results of the query in the address.
export function findPage(box, options) {
  const query = queryOf(options);
  const field = find("query");
  if (document.activeElement !== field) field.value = query.q;
  const [status, chosen, results, after, facets] = [h("p.status", { role: "status" }), h("p"), h("ol.results"), h("div"), h("div")];
  const page = h("div.split", h("details", { open: innerWidth > 800 }, h("summary", "Filter"), facets),
    h("div", h("h1.hidden", "Find"), h("div.bar", status, order(query)), chosen, results, after));
  const away = ([name, values]) => [...values].map((value) =>
    h("a.tag", { href: addressOf(toggled(query, name, value)), "aria-label": `Without ${shown(name, value)}` }, `${FACETS[name]}: ${shown(name, value)} ×`));
  const draw = () => {
    const { rows, version, whole } = catalogue;
    const { matches, counts } = search(query, rows, version);
    const first = (query.page - 1) * PAGE;
    status.textContent = rows.size === 0 ? "Loading …" : counted(matches.length, "entity", "entities");
    show(chosen, [...query.chosen].map(away));
    show(results, matches.slice(first, first + PAGE).map(result));
    results.start = first + 1;
    show(after, pager(query, matches.length));
    show(facets, Object.keys(FACETS).map((name) => facet(name, query, counts[name])));
    if (whole && rows.size === 0) show(box, nothing());
    else if (!box.contains(page)) show(box, page);
  };
  draw();
  return listen(draw);
}

// Which page the address shows, the field of the search, and the keys.

import { catalogue, listen, run } from "./catalogue.js";
import { counted, find, h, number, show } from "./dom.js";
import { entityPage } from "./entity.js";
import { findPage } from "./find.js";
import { addressOf, queryOf } from "./search.js";
import { statePage } from "./state.js";

const main = find("main");
const field = find("query");
const PAGES = { entity: entityPage, state: statePage };

let leave;
let turn = 0;

function here() {
  const [path, options] = location.hash.replace(/^#\/?/, "").split("?");
  const [name, ...words] = path.split("/");
  return { name, words, options: new URLSearchParams(options) };
}

// Shows what the address says.
async function showAddress() {
  const { name, words, options } = here();
  const page = Object.hasOwn(PAGES, name) ? PAGES[name] : findPage;
  const box = h("div");
  const mine = turn += 1;
  let leaving;
  leave?.();
  leave = undefined;
  find("notice").hidden = true;
  for (const link of document.querySelectorAll("[data-page]")) link.ariaCurrent = link.dataset.page === (name || "find") ? "page" : null;
  try {
    leaving = await page(box, options, words.map(decodeURIComponent));
  } catch (fault) {
    show(box, h("section.empty", h("h1", { tabindex: -1 }, "This can't be shown"), h("p", fault.message)));
  }
  if (mine !== turn) return leaving?.();
  leave = leaving;
  show(main, box);
  if (page !== findPage) main.querySelector("h1").focus();
  else document.title = "Catalogue";
  return main.querySelector(":focus:not(h1)") ?? scrollTo(0, 0);
}

field.addEventListener("input", () => {
  const { name, options } = here();
  const next = addressOf({ ...queryOf(name ? new URLSearchParams() : options), q: field.value, page: 1 });
  history[name ? "pushState" : "replaceState"](null, "", next);
  showAddress();
});

// Enter opens the first result.
find("search").addEventListener("submit", (event) => {
  event.preventDefault();
  document.querySelector(".results .title")?.click();
});

document.addEventListener("keydown", (event) => {
  const stops = [field, ...document.querySelectorAll(".results .title")];
  const step = { ArrowDown: 1, ArrowUp: -1 }[event.key];
  const at = stops.indexOf(document.activeElement);
  const next = event.key === "/" && !event.target.matches("input, select") ? field : step && at >= 0 && stops[at + step];
  if (!next || event.ctrlKey || event.metaKey || event.altKey) return;
  next.focus();
  event.preventDefault();
});

listen(() => {
  const { rows, whole, total, trouble } = catalogue;
  find("count").textContent = whole ? counted(rows.size, "entity", "entities") : `${number(rows.size)} of ${number(total)} entities loaded`;
  find("live").textContent = trouble ? `The server isn't heard: ${trouble.message}` : whole ? "up to date" : "";
});
addEventListener("hashchange", showAddress);
showAddress();
run();

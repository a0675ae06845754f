// The state of the catalogue: what waits, what is broken, contested or left over, and what changed.

import { catalogue, link, listen } from "./catalogue.js";
import { h, listed, number, ready, show } from "./dom.js";
import { contest, problem } from "./sentences.js";
import { ask, get } from "./server.js";

const AGAIN = 5000;

const change = ({ ref, what, time }) => h("li", h("time", time ? time.toLocaleTimeString() : "earlier"), ` ${what} `, link(ref));

export async function statePage(box) {
  const load = () => Promise.all([ask("/state"), get("/failed"), get("/conflicts"), get("/orphans")]);
  const [lists, recent] = [h("div"), h("div")];
  const draw = ([line, failed, conflicts, orphans]) => {
    const words = line.trim().split(" ");
    for (const count of box.querySelectorAll("[data-count]")) count.textContent = number(Number(words[words.indexOf(count.dataset.count) + 1]));
    show(lists, listed("Failed", failed, ({ entityRef, items }) => h("li", link(entityRef), h("ul.problems", items.map(problem))), "Nothing."),
      listed("In conflict", conflicts, (conflict) => h("li", link(conflict.entityRef), h("p", contest(conflict))), "Nothing."),
      listed("Orphaned", orphans, (ref) => h("li", link(ref)), "Nothing."));
  };
  const changed = () => show(recent, listed("What changed", catalogue.recent, change, "Nothing yet."));
  show(box, ready("state"), h("div.split.even", lists, recent));
  draw(await load());
  changed();
  const timer = setInterval(() => document.hidden || load().then(draw, () => undefined), AGAIN);
  const stop = listen(changed);
  return () => [clearInterval(timer), stop()];
}

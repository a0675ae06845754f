// A group: all that it owns, also through the groups below it, its members, and its place in the tree of groups.

import { link, rowFor } from "./catalogue.js";
import { counted, h, listed, paged, section, show } from "./dom.js";
import { result } from "./find.js";
import { kindName, targets } from "./refs.js";
import { around } from "./server.js";

const MOST = 1000;

export const OF_GROUPS = ["ownerOf", "parentOf", "childOf", "hasMember"];

async function below(ref) {
  const groups = new Map();
  for (let front = [ref]; front.length > 0 && groups.size < MOST;) {
    const found = await around(front);
    front.forEach((group, i) => groups.set(group, found[i]));
    front = [...new Set(found.flatMap((group) => targets(group, "parentOf")))].filter((group) => !groups.has(group));
  }
  return groups;
}

async function above(ref, group) {
  const chain = [];
  for (let [next] = targets(group, "childOf"); next && next !== ref && !chain.includes(next);) {
    chain.push(next);
    [next] = targets((await around([next]))[0], "childOf");
  }
  return chain;
}

function branch(ref, groups, path) {
  const group = groups.get(ref);
  const children = targets(group, "parentOf").filter((child) => groups.has(child) && !path.includes(child));
  const [members, owned] = ["hasMember", "ownerOf"].map((type) => targets(group, type).length);
  return h("li", link(ref), h("span.facts", group ? ` ${counted(members, "member")} · owns ${owned}` : " isn't in the catalogue"),
    children.length > 0 && h("ul", children.map((child) => branch(child, groups, [...path, ref]))));
}

function owned(ref, groups) {
  const box = h("div");
  const draw = (all) => {
    const refs = [...new Set((all ? [...groups.values()] : [groups.get(ref)]).flatMap((group) => targets(group, "ownerOf")))].sort();
    const kinds = Object.entries(Object.groupBy(refs, (other) => kindName(other.split(":")[0])));
    show(box, groups.size > 1 &&
      h("label", { change: () => draw(!all) }, h("input", { type: "checkbox", id: "through", checked: all }), " also through the groups below it"),
      h("p.status", { role: "status" }, kinds.map(([kind, { length }]) => counted(length, kind)).join(" · ") || "Nothing."),
      refs.length > 0 && paged("What it owns", refs, (other) => result(rowFor(other))));
  };
  draw(true);
  return box;
}

export async function groupSections(ref) {
  const groups = await below(ref);
  const chain = await above(ref, groups.get(ref));
  const tree = chain.reduce((inner, group) => h("li", link(group), h("ul", inner)), branch(ref, groups, []));
  return [section("What it owns", owned(ref, groups)), listed("Members", targets(groups.get(ref), "hasMember"), (user) => h("li", link(user)), "Nobody."),
    section("In the tree of groups", h("ul.tree", tree))];
}

// An entity: what it says, what is around it, where it comes from, and its text.

import { catalogue, dot, link, listen, tagLinks } from "./catalogue.js";
import { find, h, listed, outside, section, show } from "./dom.js";
import { graph } from "./graph.js";
import { groupSections, OF_GROUPS } from "./group.js";
import { origins } from "./origin.js";
import { address, headingOf, kindName, refOf, RELATIONS, targets } from "./refs.js";
import { contest, problem } from "./sentences.js";
import { exact, get, post } from "./server.js";
import { yaml } from "./yaml.js";

const ASIDE = ["ownedBy", "partOf"];

const written = (value) => (typeof value === "string" ? value : JSON.stringify(value));

async function refresh(entityRef) {
  const notice = find("notice");
  notice.textContent = await post("/refresh", { entityRef })
    .then(() => "It is due again; what changes appears here.", ({ message }) => `It can't be refreshed: ${message}.`);
  notice.hidden = false;
}

function head(ref, { metadata, spec } = {}, tab) {
  const [kind] = ref.split(":");
  const title = written(metadata?.title ?? spec?.profile?.displayName ?? metadata?.name ?? ref);
  document.title = `${title} · Catalogue`;
  return h("header.entity", h("p.kind", dot(kind), [kindName(kind), spec?.type].filter(Boolean).join(" · ")), h("h1", { tabindex: -1 }, title),
    h("p.reference", h("code", ref), h("button", { click: () => refresh(ref) }, "Refresh")),
    metadata && h("nav.tabs", { "aria-label": "Parts of the entity" }, Object.keys(TABS).map((name) =>
      h("a", { href: address(ref, `?tab=${name}`), "aria-current": name === tab && "page" }, name))));
}

const pairs = (entries) => h("dl", entries.filter(([, value]) => value?.length > 0).map(([key, value]) => [h("dt", key), h("dd", value)]));

const labels = (title, map = {}) => Object.keys(map).length > 0 && section(title, pairs(Object.entries(map).map(([key, value]) => [key, written(value)])));

const alarm = (title, items) => items.length > 0 && h("section.alarm", h("h2", title), h("ul", items));

function later(promise) {
  const box = h("div", "…");
  promise.then((children) => show(box, children), (fault) => show(box, fault.message));
  return box;
}

const contests = async (ref) => alarm("It is offered twice",
  (await get("/conflicts")).filter(({ entityRef }) => entityRef === ref).map((conflict) => h("li", contest(conflict))));

function about(ref, entity) {
  const { metadata, spec = {} } = entity;
  const mail = spec.profile?.email;
  return h("aside", { "aria-label": "About it" }, pairs([
    ...ASIDE.map((type) => [headingOf(type), targets(entity, type).slice(0, 50).map(link)]),
    ["Type", written(spec.type)], ["Lifecycle", written(spec.lifecycle)], ["Mail", mail && [outside(`mailto:${mail}`, mail)]],
    ["Tags", tagLinks(metadata.tags ?? [])], ["Links", (metadata.links ?? []).map(({ url, title = url }) => h("p", outside(url, title)))],
  ]), section("Where it comes from", later(origins(ref, entity))), labels("Labels", metadata.labels), labels("Annotations", metadata.annotations));
}

function overview(ref, entity) {
  const { metadata, status, relations = [] } = entity;
  const groups = ref.startsWith("group:") ? OF_GROUPS : [];
  const types = new Set([...Object.keys(RELATIONS), ...relations.map(({ type }) => type)]);
  for (const type of [...ASIDE, ...groups]) types.delete(type);
  return h("div.split.entity", h("div",
    alarm("What is wrong with it", (status?.items ?? []).map(problem)), later(contests(ref)),
    metadata.annotations?.["backstage.io/orphan"] === "true" && h("p.alarm", "It is an orphan: what it came from lists it no more."),
    metadata.description && h("p.description", written(metadata.description)), groups.length > 0 && later(groupSections(ref)),
    [...types].map((type) => [headingOf(type), targets(entity, type)]).filter(([, refs]) => refs.length > 0)
      .map(([title, refs]) => listed(title, refs, (other) => h("li", link(other))))), about(ref, entity));
}

const TABS = {
  Overview: overview,
  Graph: (ref, entity, options) => later(graph(ref, options)),
  YAML: (ref, entity) => h("pre", { tabindex: 0 }, yaml(entity)),
  JSON: (ref, entity) => h("pre", { tabindex: 0 }, JSON.stringify(entity, null, 2)),
};

let read = {};

// Shows the entity of an address, or why it has no document.
export async function entityPage(box, options, words) {
  const ref = refOf(...words);
  const tab = TABS[options.get("tab")] ? options.get("tab") : "Overview";
  const isOld = () => catalogue.whole !== read.whole || catalogue.recent.some((change) => change.ref === ref && change.time > read.time);
  const draw = async () => {
    if (read.ref !== ref || isOld()) {
      read = { ref, time: new Date(), whole: catalogue.whole };
      [read.entity] = (await post("/entities/by-refs", { entityRefs: [ref] }, exact)).items;
    }
    const { entity } = read;
    if (entity) return show(box, head(ref, entity, tab), TABS[tab](ref, entity, options));
    const failed = (await get("/failed")).find(({ entityRef }) => entityRef === ref);
    return show(box, head(ref), failed
      ? alarm("It has no document, since it was never processed well", failed.items.map(problem)) : "Nothing in the catalogue has this reference.");
  };
  await draw();
  return listen(() => isOld() && draw());
}

// What the search knows of each entity: loaded page by page, and kept by `/changes`.

import { h } from "./dom.js";
import { address, parts, refIn, resolved, shortName } from "./refs.js";
import { get, headers } from "./server.js";

const EVERY = 2000;
const METADATA = ["namespace", "name", "title", "description", "tags"].map((key) => `metadata.${key}`);
const FIELDS = `kind,${METADATA},spec.type,spec.lifecycle,spec.owner,spec.profile.displayName`;

// Rows by reference; whether all are there; what changed, the newest first; why the server isn't heard.
export const catalogue = { rows: new Map(), whole: false, total: 0, version: 0, recent: [], trouble: undefined };

const listeners = new Set();
let place;
let waiting;

export function listen(listener) {
  listeners.add(listener);
  return () => listeners.delete(listener);
}

// Tells the listeners, a few times a second at most.
function tell() {
  catalogue.version += 1;
  waiting ??= setTimeout(() => {
    waiting = undefined;
    for (const listener of listeners) listener();
  }, 200);
}

const text = (value) => (typeof value === "string" ? value : "");

function keep({ kind, metadata, spec = {} }) {
  const { name, namespace = "default" } = metadata;
  const ref = refIn({ kind, metadata });
  const title = text(metadata.title) || text(spec.profile?.displayName);
  const description = text(metadata.description);
  const tags = (metadata.tags ?? []).map(text);
  catalogue.rows.set(ref, {
    ref, kind: kind.toLowerCase(), name, title, description, tags, type: text(spec.type), lifecycle: text(spec.lifecycle),
    owner: text(spec.owner) && resolved(spec.owner, "group", namespace),
    label: (title || name).toLowerCase(), found: [name, title, description, ...tags].join("\n").toLowerCase(),
  });
}

export const rowFor = (ref) => catalogue.rows.get(ref) ?? { ref, ...parts(ref), title: "", tags: [] };

export const titleOf = (ref) => catalogue.rows.get(ref)?.title || shortName(ref);

export const dot = (kind) => h(`span.dot.${kind.toLowerCase().replaceAll(/\W/g, "")}`, { "aria-hidden": "true" });

export const link = (ref) => h("a.ref", { href: address(ref), title: ref }, dot(parts(ref).kind), titleOf(ref));

export const tagLinks = (tags) => tags.map((tag) => h("a.tag", { href: `#/?tags=${encodeURIComponent(tag)}` }, text(tag)));

const presentPlace = () => new Promise((done) => {
  const worker = new Worker("/page/place.js", { type: "module" });
  worker.addEventListener("message", ({ data }) => done(data, worker.terminate()));
  worker.postMessage(headers());
});

// The first question is for the token, which the worker can't ask for.
async function load() {
  let cursor = "";
  await get("/entities/by-query?limit=1&fields=kind");
  place = await presentPlace();
  catalogue.rows.clear();
  do {
    const { items, totalItems, pageInfo } = await get(`/entities/by-query?limit=1000&fields=${FIELDS}${cursor}`);
    items.forEach(keep);
    catalogue.total = totalItems;
    cursor = pageInfo.nextCursor && `&cursor=${pageInfo.nextCursor}`;
    tell();
  } while (cursor);
}

async function follow(since, time) {
  const { changes, to } = await get(`/changes?since=${since}`);
  for (const { entityRef: ref, set } of changes) {
    const was = catalogue.rows.has(ref);
    if (set) keep(set);
    else catalogue.rows.delete(ref);
    catalogue.recent.unshift({ ref, time, what: !set ? "removed" : was ? "changed" : "added" });
  }
  catalogue.recent.splice(200);
  place = to;
  if (changes.length > 0) tell();
}

async function begin() {
  await load();
  const [epoch, last] = place.split(".");
  await follow(`${epoch}.${Math.max(0, last - 50)}`).catch(() => undefined);
  catalogue.whole = true;
  tell();
}

export async function run() {
  try {
    if (!catalogue.whole) await begin();
    else if (!document.hidden) await follow(place, new Date());
    if (catalogue.trouble) tell();
    catalogue.trouble = undefined;
  } catch (fault) {
    if (fault.status === 410) catalogue.whole = false;
    catalogue.trouble = fault;
    tell();
  }
  setTimeout(run, EVERY);
}

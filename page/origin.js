// Where an entity comes from: the text that it stands in, the Location that names it, and so on up to a provider.

import { link } from "./catalogue.js";
import { h } from "./dom.js";
import { refIn } from "./refs.js";
import { get } from "./server.js";

const textOf = ({ metadata }) => metadata.annotations?.["backstage.io/managed-by-location"] ?? "";

function named(type, target, base) {
  if (type === "file") return decodeURI(new URL(target, `file://${base}`).href).replace("file://", "file:");
  return `${type}:${type === "url" && URL.canParse(target, base) ? new URL(target, base).href : target}`;
}

function isNamedBy(text, location) {
  const [, from, base] = /^([^:]*):(.*)$/s.exec(textOf(location)) ?? [];
  const { type = from, target, targets = [] } = location.spec ?? {};
  return [target, ...targets].some((other) => typeof other === "string" && named(type, other, type === from ? base : "/") === text);
}

export async function origins(ref, entity) {
  const lines = [];
  const seen = new Set([ref]);
  let text = textOf(entity);
  const { items } = text ? await get("/entities/by-query?limit=1000&filter=kind=location&fields=kind,metadata,spec") : {};
  while (text) {
    const holder = items.find((location) => !seen.has(refIn(location)) && isNamedBy(text, location));
    lines.push(h("li", lines.length > 0 ? "This stands in " : "It stands in ", h("code", text), holder && [", which is named by ", link(refIn(holder))], "."));
    if (!holder) return h("ol", lines);
    seen.add(refIn(holder));
    text = textOf(holder);
  }
  return h("ol", lines, h("li", lines.length > 0 ? "A provider gives this one itself." : "A provider gives it itself."));
}

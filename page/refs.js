// References, `kind:namespace/name`, and the relations between them.

import { find } from "./dom.js";

export function parts(ref) {
  const [, kind, namespace, name] = /^([^:]*):([^/]*)\/(.*)$/s.exec(ref) ?? ["", "", "", ref];
  return { kind, namespace, name };
}

export const refOf = (kind, namespace, name) => `${kind}:${namespace}/${name}`.toLowerCase();

export const refIn = ({ kind, metadata }) => refOf(kind, metadata.namespace ?? "default", metadata.name);

// The whole reference that a text stands for.
export function resolved(text, kind, namespace) {
  const found = /^(?:([^:/]*):)?(?:([^/]*)\/)?([^/]*)$/.exec(text);
  return found ? refOf(found[1] ?? kind, found[2] ?? namespace, found[3]) : "";
}

export const kindName = (kind) => (kind === "api" ? "API" : kind.charAt(0).toUpperCase() + kind.slice(1));

export const address = (ref, options = "") => `#/entity/${Object.values(parts(ref)).map(encodeURIComponent).join("/")}${options}`;

export function shortName(ref) {
  const { namespace, name } = parts(ref);
  return namespace === "default" ? name : `${namespace}/${name}`;
}

// Each relation's heading, and the one of its pair that points away.
const told = [...find("relations").content.children];
export const RELATIONS = Object.fromEntries(told.map(({ dataset, textContent }) => [dataset.type, [textContent, dataset.onward]]));

export const headingOf = (type) => RELATIONS[type]?.[0] ?? type;

export const targets = (entity, type) => (entity?.relations ?? []).filter((relation) => relation.type === type).map((relation) => relation.targetRef);

// Search over what is in memory: words, facets and orders.

export const FACETS = { kind: "Kind", type: "Type", lifecycle: "Lifecycle", owner: "Owner", tags: "Tag" };

const NAMES = Object.keys(FACETS);

// What an address says.
export function queryOf(options) {
  const chosen = new Map(NAMES.map((facet) => [facet, new Set(options.getAll(facet))]).filter(([, { size }]) => size > 0));
  return { q: options.get("q") ?? "", chosen, order: options.get("order") ?? "best", page: Math.max(1, Math.trunc(options.get("page")) || 1) };
}

export function addressOf({ q, chosen, order, page }) {
  const options = new URLSearchParams(q && { q });
  for (const [facet, values] of chosen) for (const value of values) options.append(facet, value);
  if (order !== "best") options.set("order", order);
  if (page > 1) options.set("page", page);
  return options.size > 0 ? `#/?${options}` : "#/";
}

export function toggled(query, facet, value) {
  const values = new Set(query.chosen.get(facet)).symmetricDifference(new Set([value]));
  return { ...query, chosen: new Map(query.chosen).set(facet, values), page: 1 };
}

const valuesOf = (row, facet) => (facet === "tags" ? row.tags : [row[facet]]);

const compared = (a, b) => (a < b ? -1 : a > b ? 1 : 0);

const sorted = { version: -1, orders: {} };

// All rows in an order, kept until something changes. What has no value comes last.
function rowsBy(order, rows, version) {
  if (sorted.version !== version) {
    const old = (sorted.orders.name ?? []).filter((row) => rows.get(row.ref) === row);
    const names = [...old, ...[...rows.values()].filter((row) => !row.isOld)].sort((a, b) => compared(a.label, b.label));
    for (const row of names) row.isOld = true;
    Object.assign(sorted, { version, orders: { name: names, best: names } });
  }
  if (!sorted.orders[order]) {
    const groups = Map.groupBy(sorted.orders.name, (row) => row[order] ?? "");
    const values = [...groups.keys()].sort((a, b) => compared(!a, !b) || compared(a, b));
    sorted.orders[order] = values.flatMap((value) => groups.get(value));
  }
  return sorted.orders[order];
}

// First those whose own names fit a phrase best.
function ranked(matches, phrase) {
  const ranks = [[], [], [], []];
  for (const row of matches) {
    const ranksOf = [row.name.toLowerCase(), row.label].map((name) => (name === phrase ? 0 : name.startsWith(phrase) ? 1 : name.includes(phrase) ? 2 : 3));
    ranks[Math.min(...ranksOf)].push(row);
  }
  return ranks.flat();
}

// The rows that match, and how many have each value of a facet, which counts what the other facets leave.
export function search({ q, chosen, order }, rows, version) {
  const phrase = q.trim().toLowerCase();
  const words = phrase.split(/\s+/);
  const counts = Object.fromEntries(NAMES.map((facet) => [facet, new Map()]));
  const count = (row, facet) => {
    for (const value of valuesOf(row, facet)) if (value) counts[facet].set(value, (counts[facet].get(value) ?? 0) + 1);
  };
  const matches = [];
  for (const row of rowsBy(order, rows, version)) {
    if (!words.every((word) => row.found.includes(word))) continue;
    const missed = [...chosen].filter(([facet, values]) => !valuesOf(row, facet).some((value) => values.has(value)));
    if (missed.length === 0) matches.push(row);
    for (const facet of NAMES) if (missed.every(([other]) => other === facet)) count(row, facet);
  }
  return { matches: order === "best" && phrase ? ranked(matches, phrase) : matches, counts };
}

export const foremost = (counts, most) => [...counts].sort((a, b) => b[1] - a[1] || compared(a[0], b[0])).slice(0, most);

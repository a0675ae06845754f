// A graph of what is around an entity: on its left what points to it, on its right what it points to.

import { titleOf } from "./catalogue.js";
import { counted, h, svg } from "./dom.js";
import { address, headingOf, kindName, parts, RELATIONS } from "./refs.js";
import { around } from "./server.js";

const [WIDTH, HEIGHT, ACROSS, DOWN] = [172, 38, 250, 52];
const TALL = 12;

class Graph {
  constructor(hidden) {
    Object.assign(this, { hidden, nodes: new Map(), edges: new Map(), types: new Set(), left: new Set() });
  }

  // True where it is new and has room.
  place(ref, column) {
    if (this.nodes.has(ref)) return false;
    const room = [...this.nodes.values()].filter((node) => node.column === column).length < TALL;
    if (room) this.nodes.set(ref, { column });
    else this.left.add(ref);
    return room;
  }

  // True where the target of the relation is new.
  add(ref, { type, targetRef }, goesOn) {
    const onward = RELATIONS[type]?.[1] ?? type;
    this.types.add(onward);
    if (this.hidden.includes(onward)) return false;
    const isNew = goesOn && this.place(targetRef, this.nodes.get(ref).column + (onward === type ? 1 : -1));
    const [from, to] = onward === type ? [ref, targetRef] : [targetRef, ref];
    if (this.nodes.has(targetRef)) this.edges.set(`${from} ${onward} ${to}`, { type: onward, from, to });
    return isNew;
  }

  async grow(front, steps) {
    const found = await around(front);
    const next = front.flatMap((ref, i) => {
      this.nodes.get(ref).missing = !found[i];
      return (found[i]?.relations ?? []).filter((relation) => this.add(ref, relation, steps > 0)).map(({ targetRef }) => targetRef);
    });
    if (next.length > 0) await this.grow(next, steps - 1);
  }

  // Gives each node its place; answers the size.
  arrange() {
    const columns = Map.groupBy(this.nodes.values(), ({ column }) => column);
    const least = Math.min(...columns.keys());
    const tallest = Math.max(...[...columns.values()].map(({ length }) => length));
    for (const [column, members] of columns) {
      members.forEach((node, i) => Object.assign(node, { x: 8 + (column - least) * ACROSS, y: 8 + (i + (tallest - members.length) / 2) * DOWN }));
    }
    return { width: columns.size * ACROSS, height: tallest * DOWN + 8 };
  }
}

function box(ref, { x, y, missing }, start) {
  const { kind } = parts(ref);
  const title = titleOf(ref);
  const label = ref + (missing ? ", which isn't in the catalogue" : "");
  return svg("a", { href: address(ref, "?tab=Graph"), class: `node ${kind} ${ref === start && "start"} ${missing && "missing"}`, "aria-label": label },
    svg("title", ref), svg("rect", { x, y, width: WIDTH, height: HEIGHT, rx: 6 }), svg("rect.side", { x, y, width: 5, height: HEIGHT, rx: 2 }),
    svg("text", { x: x + 14, y: y + 16 }, title.length > 22 ? `${title.slice(0, 21)}…` : title), svg("text.small", { x: x + 14, y: y + 30 }, kindName(kind)));
}

// A line on, back, or round within a column.
function line(name, { type, from, to }, nodes) {
  const [a, b] = [nodes.get(from), nodes.get(to)];
  const [out, into] = [a.x <= b.x, a.x < b.x];
  const [x1, y1, x2, y2] = [a.x + out * WIDTH, a.y + HEIGHT / 2, b.x + !into * WIDTH, b.y + HEIGHT / 2];
  const d = `M${x1} ${y1}C${x1 + (out ? 45 : -45)} ${y1} ${x2 + (into ? -45 : 45)} ${y2} ${x2} ${y2}`;
  return svg(`path.edge.${type}`, { d, "marker-end": "url(#arrow)" }, svg("title", name));
}

// The picture, and what chooses its steps and relations.
export async function graph(ref, options) {
  const steps = Math.min(3, Math.max(1, Number(options.get("steps")) || 1));
  const hidden = options.getAll("without");
  const drawn = new Graph(hidden);
  drawn.place(ref, 0);
  await drawn.grow([ref], steps);
  const { nodes, edges, types, left } = drawn;
  const there = (count, without) => address(ref, `?tab=Graph&steps=${count}${without.map((type) => `&without=${type}`).join("")}`);
  const key = (type) => {
    const isHidden = hidden.includes(type);
    const href = there(steps, isHidden ? hidden.filter((other) => other !== type) : [...hidden, type]);
    return h("a.key", { href, id: `key ${type}`, role: "switch", "aria-checked": String(!isHidden) },
      svg("svg", { width: 24, height: 8, "aria-hidden": "true" }, svg(`path.edge.${type}`, { d: "M0 4H24" })), headingOf(type).toLowerCase());
  };
  const picture = svg("svg", { ...drawn.arrange(), role: "group", "aria-label": `${counted(nodes.size, "entity", "entities")} around ${ref}` },
    [...edges].map(([name, edge]) => line(name, edge, nodes)), [...nodes].map(([other, node]) => box(other, node, ref)));
  const frame = h("div.frame", { tabindex: 0, role: "region", "aria-label": "Graph" }, picture);
  requestAnimationFrame(() => { frame.scrollLeft = nodes.get(ref).x - (frame.clientWidth - WIDTH) / 2; });
  const step = (n) => h("a", { href: there(n, hidden), "aria-current": n === steps && "true" }, n);
  return [h("div.bar", h("span.steps", "Steps ", [1, 2, 3].map(step)), [...types].sort().map(key)), frame,
    left.size > 0 && h("p.status", `${left.size} more have no room here; the overviews list them.`)];
}

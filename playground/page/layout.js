// Where the boxes of a picture stand: by dagre, which is fetched when the first picture is drawn.
import { drawn } from "./view.js";

let library;

/** Fetches dagre, once. */
export function layoutReady() {
  library ??= new Promise((resolve, reject) => {
    const script = document.createElement("script");
    script.src = "lib/dagre.min.js";
    script.onload = resolve;
    script.onerror = () => reject(new Error("dagre isn't here"));
    document.head.append(script);
  });
  return library;
}

/**
 * Lays boxes out. `boxes` have `width` and `height`, `edges` have `from` and `to`, numbers of boxes, and perhaps a
 * `label` with its width. The answer has the places of the boxes' corners, the points of each edge, and the size.
 */
export function laidOut(boxes, edges, { direction, gap, layers }) {
  const { dagre } = globalThis;
  const graph = new dagre.graphlib.Graph({ multigraph: true });
  graph.setGraph({ rankdir: direction, nodesep: gap, edgesep: gap / 2, ranksep: layers, marginx: 28, marginy: 16,
    ranker: boxes.length > 250 ? "longest-path" : "network-simplex" });
  boxes.forEach(({ width, height }, number) => graph.setNode(String(number), { width, height }));
  edges.forEach(({ from, to, label }, number) => graph.setEdge(String(from), String(to),
    label ? { width: label, height: 14, labelpos: "r", labeloffset: 4 } : {}, String(number)));
  dagre.layout(graph);
  const { width, height } = graph.graph();
  return {
    width: Math.max(width, 0) || 0, height: Math.max(height, 0) || 0,
    places: boxes.map((box, number) => {
      const { x, y } = graph.node(String(number));
      return { x: x - box.width / 2, y: y - box.height / 2 };
    }),
    edges: edges.map(({ from, to }, number) => graph.edge(String(from), String(to), String(number))),
  };
}

/** A smooth line through points. */
export function lineThrough(points) {
  const [first, ...rest] = points;
  const between = (one, other) => `${(one.x + other.x) / 2} ${(one.y + other.y) / 2}`;
  const bends = rest.slice(0, -1).map((point, place) => ` Q${point.x} ${point.y} ${between(point, rest[place + 1])}`);
  const last = rest.at(-1);
  const start = rest.length > 1 ? ` L${between(first, rest[0])}` : "";
  return `M${first.x} ${first.y}${start}${bends.join("")} L${last.x} ${last.y}`;
}

/** The tip of an arrow, for `marker-end`. */
export function tip(id) {
  return drawn("defs", {},
    drawn("marker", {
      id,
      viewBox: "0 0 8 8",
      refX: 7,
      refY: 4,
      markerWidth: 10,
      markerHeight: 10,
      markerUnits: "userSpaceOnUse",
      orient: "auto"
    },
      drawn("path", { d: "M0 0.5 L8 4 L0 7.5 z", class: "tip" })));
}

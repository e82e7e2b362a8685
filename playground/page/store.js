// The store as boxes and arrows: a box for each object with its fields, an arrow for each reference.
import { laidOut, layoutReady, lineThrough, tip } from "./layout.js";
import { drawn, element } from "./view.js";

const LETTER = 7.9;
const ROW = 22;
const LEAST = 110;

function valueText(value) {
  return value === null ? "null" : String(value);
}

function sized(object) {
  const longest = Math.max(
    object.name.length + 2, ...object.fields.map(({ name, value }) => name.length + valueText(value).length + 4));
  return { ...object, width: Math.max(longest * LETTER + 18, LEAST), height: (object.fields.length + 1) * ROW + 6 };
}

function row({ name, value, hasChanged }, number, { x, y, width }) {
  const base = y + (number + 1) * ROW + 17;
  return [
    hasChanged ? drawn("rect", { class: "changed", x: x + 1, y: base - 16, width: width - 2, height: ROW }) : null,
    drawn("text", { x: x + 10, y: base, class: "field" }, name),
    drawn("text",
      { x: x + width - 10, y: base, class: hasChanged ? "value strong" : "value", "text-anchor": "end" },
      valueText(value))
  ];
}

function box(object) {
  const { name, fields, x, y, width, height, isNew } = object;
  return drawn("g", {}, drawn("rect", { class: isNew ? "box new" : "box", x, y, width, height, rx: 6 }),
    drawn("path", { class: "rule", d: `M${x} ${y + ROW + 2} H${x + width}` }),
    drawn("text", { x: x + 10, y: y + 17, class: "name" }, name),
    fields.map((field, number) => row(field, number, object)));
}

/**
 * An arrow from the row of a field to the name of the object that stands in it: to the right it leaves and enters as one
 * reads, to the left the other way round.
 */
function arrow(from, number, to, points) {
  const isBack = to.x < from.x;
  const start = { x: isBack ? from.x : from.x + from.width, y: from.y + (number + 1) * ROW + 13 };
  const draw = (line) => drawn("path", { class: "edge", d: line, "marker-end": "url(#store-tip)" });
  const inner = points.slice(1, -1);
  if (from === to) {
    const aside = start.x + 44;
    return draw(`M${start.x} ${start.y} C${aside} ${start.y}, ${aside} ${from.y + 8}, ${start.x + 2} ${from.y + 12}`);
  }
  return draw(lineThrough([start, ...inner, { x: isBack ? to.x + to.width : to.x, y: to.y + 12 }]));
}

/** Objects without references stand in rows below the others. */
function placedInRows(boxes, top, most) {
  let [x, y, tall] = [16, top, 0];
  return boxes.map((object) => {
    if (x > 16 && x + object.width > most) [x, y, tall] = [16, y + tall + 16, 0];
    const placed = { ...object, x, y };
    x += object.width + 20;
    tall = Math.max(tall, object.height);
    return placed;
  });
}

function referencesOf(boxes) {
  const byName = new Map(boxes.map(({ name }, number) => [name, number]));
  return boxes.flatMap(({ fields }, from) => fields.flatMap(({ value }, number) =>
    (typeof value === "string" && byName.has(value) ? [{ from, to: byName.get(value), number }] : [])));
}

/** A picture of objects; `most` is the width that there is. */
export async function storePicture(objects, most = 640) {
  if (!objects.length) return element("p", { class: "quiet" }, "There is no object.");
  const all = objects.map(sized);
  const references = referencesOf(all);
  const isLinked = (number) => references.some(({ from, to }) => from === number || to === number);
  const linked = all.filter((_, number) => isLinked(number));
  const edges = referencesOf(linked);
  let laid = { places: [], edges: [], width: 0, height: 0 };
  if (linked.length) {
    await layoutReady();
    laid = laidOut(linked, edges.filter(({ from, to }) => from !== to), { direction: "LR", gap: 18, layers: 50 });
  }
  const placed = linked.map((object, number) => ({ ...object, ...laid.places[number] }));
  const others = placedInRows(all.filter((_, number) => !isLinked(number)), linked.length ? laid.height + 4 : 8, most);
  return picture([...placed, ...others], placed, edges, laid);
}

function picture(boxes, placed, edges, laid) {
  const width = Math.max(laid.width + 30, ...boxes.map((it) => it.x + it.width + 16));
  const height = Math.max(...boxes.map((it) => it.y + it.height)) + 12;
  const straight = edges.filter(({ from, to }) => from !== to);
  const arrows = edges.map(
    (edge) => arrow(placed[edge.from], edge.number, placed[edge.to], laid.edges[straight.indexOf(edge)]?.points ?? []));
  const said =
    boxes.map(({ name, fields }) => `${name}: ${fields.map((it) => `${it.name} = ${valueText(it.value)}`).join(", ")}`);
  return element("div", { class: "store", tabindex: 0, role: "group", "aria-label": "The store" },
    drawn("svg", { viewBox: `0 0 ${width} ${height}`, width, height, role: "img", "aria-label": said.join("; ") },
      tip("store-tip"), boxes.map(box), arrows));
}

// How the lines of a graph are led between its boxes.

/** How far a line at the side is from the boxes. */
const ASIDE = 24;

/** How far down or up the boxes reach that stand in a row with one. */
function reach(box, boxes) {
  const middle = ({ y, height }) => y + height / 2;
  const tall = Math.max(...boxes.filter((it) => Math.abs(middle(it) - middle(box)) < 1).map(({ height }) => height));
  return [middle(box) - tall / 2, middle(box) + tall / 2];
}

/** Where a line leaves or enters a box: towards the point where it goes on. */
function port({ x, width }, point) {
  const middle = x + width / 2;
  return middle + Math.min(Math.max((point.x - middle) / 2, -width / 3), width / 3);
}

/**
 * A line as dagre leads it, but out of a box below and into one above, past the boxes beside them. `isLeft` says on
 * which side of the box it begins.
 */
export function led(line, edge, boxes) {
  if (edge.isLoop) return besides(line, edge, boxes);
  const [from, to] = [boxes[edge.from], boxes[edge.to]];
  const isShort = line.points.length <= 3;
  const inner = isShort ? [] : line.points.slice(1, -1);
  const ends = [from, to].map(({ x, width }) => ({ x: x + width / 2 }));
  const leaves = port(from, inner[0] ?? ends[1]);
  const enters = port(to, inner.at(-1) ?? ends[0]);
  const start = { x: leaves, y: from.y + from.height };
  const end = { x: enters, y: to.y };
  const turns = [{ x: leaves, y: reach(from, boxes)[1] + 8 }, ...inner, { x: enters, y: reach(to, boxes)[0] - 8 }];
  return { points: [start, ...turns, end], isLeft: leaves < from.x + from.width / 2 };
}

/** A line back to the box right above goes at the side; dagre has led longer ones there already. */
function besides(line, { from, to }, boxes) {
  if (line.points.length > 3) return line;
  const [low, high] = [boxes[from], boxes[to]];
  const left = Math.max(Math.min(low.x, high.x) - ASIDE, 2);
  const [start, end] = [low, high].map(({ x, y, height }) => ({ x, y: y + height / 2 }));
  const isInTheWay = (box) => box !== low && box !== high && box.x < Math.max(low.x, high.x)
    && box.x + box.width > left && box.y < start.y && box.y + box.height > end.y;
  if (boxes.some(isInTheWay)) return line;
  return { points: [start, { x: left, y: start.y }, { x: left, y: end.y }, end], isLeft: true };
}

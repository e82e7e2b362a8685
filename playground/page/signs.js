// The signs of the page, the same everywhere: a thread is a colour, a right and a mode are shapes, and a lock is a chip
// whose border tells one object from a class and from everything.
import { lockText } from "./answers.js";
import { drawn, element } from "./view.js";

const COLOURS = 8;

/**
 * A hollow sign reads and a full one writes; a ring or a disc stands for a key itself, a triangle for keys below it.
 */
const SHAPES = {
  ring: () => drawn("circle", { cx: 6, cy: 6, r: 4, class: "hollow" }),
  disc: () => drawn("circle", { cx: 6, cy: 6, r: 4.6, class: "full" }),
  cross: () => drawn("path", { d: "M6 1.5 V10.5 M1.5 6 H10.5", class: "hollow strong" }),
  down: () => drawn("path", { d: "M1.6 2.6 H10.4 L6 10 Z", class: "hollow" }),
  downFull: () => drawn("path", { d: "M1.2 2.2 H10.8 L6 10.6 Z", class: "full" }),
  both: () => [drawn("circle", { cx: 6, cy: 6, r: 4.8, class: "hollow" }),
    drawn("path", { d: "M3.6 4.4 H8.4 L6 8.4 Z", class: "full" })],
};
const OF = { R: "ring", W: "disc", M: "cross", S: "ring", X: "disc", IS: "down", IX: "downFull", SIX: "both" };

/** The shape of a right or of a mode. */
export function shape(name) {
  if (!OF[name]) return null;
  return drawn("svg", { class: "shape", viewBox: "0 0 12 12", width: 12, height: 12, "aria-hidden": "true" },
    SHAPES[OF[name]]());
}

/** A mode with its shape. */
export function mode(name) {
  return element("span", { class: "mode" }, shape(name), name);
}

/** A key and the mode in which it is held or wanted, with the border that a lock on it would have. */
export function keySign(key, how) {
  const kind = key === "all" ? "all" : key.startsWith("class ") ? "class" : "object";
  return element("span", { class: `key of-${kind}` }, mode(how), key);
}

/** The class that has a thread's colour. */
export function threadColour(thread) {
  return `thread-${thread % COLOURS}`;
}

/** A thread's name in its colour. */
export function threadSign(name, thread) {
  return element("span", { class: `thread ${threadColour(thread)}` }, name);
}

/** What stands in a lock's chip. */
export function lockParts(lock) {
  return [shape(lock.right), element("span", {}, lockText(lock))];
}

export function lockClass(lock) {
  return `lock ${lock.right} of-${lock.kind}`;
}

/** A lock as a chip. */
export function lockSign(lock) {
  return element("span", { class: lockClass(lock) }, lockParts(lock));
}

/** The chips of a set of locks. */
export function setSigns(locks) {
  return locks.length ? locks.map(lockSign) : element("span", { class: "quiet" }, "no lock");
}

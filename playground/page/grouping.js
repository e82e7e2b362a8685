// In what outcomes differ.
import { ENDS } from "./answers.js";

function valueText(value) {
  return value === null ? "null" : String(value);
}

/** What an outcome is, by the names of its parts. */
function partsOf({ threads, output, objects }, names) {
  const parts = new Map();
  for (const { name, fields } of objects)
    for (const field of fields) parts.set(`${name}.${field.name}`, valueText(field.value));
  parts.set("printed", output.length ? output.join(" ") : "nothing");
  threads.forEach(({ state }, thread) => parts.set(`thread ${names[thread]}`, ENDS[state]));
  return parts;
}

/** An outcome's text: two outcomes are one where it is the same. */
export function identityOf(outcome, names) {
  return JSON.stringify([...partsOf(outcome, names)].sort());
}

/** The parts in which some outcomes differ, in their order, and those that are the same in all. */
export function differences(outcomes, names) {
  const all = outcomes.map((outcome) => partsOf(outcome, names));
  const keys = [...new Set(all.flatMap((parts) => [...parts.keys()]))];
  const isSame = (key) => all.every((parts) => parts.get(key) === all[0].get(key));
  const same = keys.filter(isSame).map((key) => [key, all[0].get(key)]);
  return { columns: keys.filter((key) => !isSame(key)), rows: all, same };
}

/** The numbers of outcomes in the order of what they differ in, so that what is alike stands together. */
export function sorted(rows, columns) {
  const compare = (one, other) => one.localeCompare(other, "en", { numeric: true });
  const order = (first, second) =>
    columns.reduce((found, key) => found || compare(rows[first].get(key) ?? "", rows[second].get(key) ?? ""), 0);
  return rows.map((_, number) => number).sort(order);
}

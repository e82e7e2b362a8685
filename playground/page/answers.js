// What the program answers as JSON, and what it calls the locks, keys and pairs of which it tells.

/** An answer's document. An integer that a float can't hold stays the text of its digits. */
export function documentOf(text) {
  if (!/\d{16}/.test(text)) return JSON.parse(text);
  return JSON.parse(text, (_name, value, { source }) =>
    typeof value === "number" && !Number.isSafeInteger(value) ? source : value);
}

/** The documents of an answer that has one a line. */
export function documentsOf(text) {
  return text.split("\n").filter(Boolean).map(documentOf);
}

/** What the document of a refusal says, as the line that is printed as text; of another answer its own text. */
export function refusalLine(text) {
  if (!text.startsWith("{")) return text;
  const { code, name, ...told } = documentOf(text).refused;
  return ["refused", code, name, ...Object.entries(told).flat()].join(" ");
}

function subject({ kind, class: number, path, name }) {
  return { all: "all", class: `class ${number}`, path, object: name }[kind];
}

/** A lock as the program prints it, as `R head.next`. */
export function lockText(lock) {
  return `${lock.right} ${subject(lock)}`;
}

/** A set of locks as the program prints it. */
export function setText(locks) {
  return locks.map(lockText).join(", ") || "none";
}

/** A key as the program prints it, as `class 1`. */
export function keyText(key) {
  return subject(key);
}

/** How a thread has ended, in words. */
export const ENDS = {
  done: "done", running: "still running", null: "stopped at null", overflow: "stopped by overflow", fuel: "out of fuel",
};

/** A number and its noun, in the plural where it isn't one. */
export function counted(number, noun) {
  return `${number.toLocaleString("en")} ${noun}${number === 1 ? "" : "s"}`;
}

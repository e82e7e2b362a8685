// What `sectc schedule --chart` says of a turn: who waits for what, behind whom, and what was printed.

/** For each turn the text of each thread, by the columns under the threads' names. */
export function cellsOf(chart, turns) {
  const [head, ...rows] = chart.split("\n");
  const columns = Array.from(head.matchAll(/\S+/g), ({ index }) => index).slice(1);
  return rows.slice(0, turns).map(
    (row) => columns.map((start, thread) => row.slice(start, columns[thread + 1]).trim()));
}

/** What a thread waits for, where its cell says that it waits. */
export function waitOf(cell) {
  const found = cell.match(/^waits for (.+?): wants (\w+)(.*)$/);
  if (!found) return null;
  const [, key, mode, rest] = found;
  return {
    key, mode,
    holders: Array.from(rest.matchAll(/, (\w+) holds (\w+)/g), ([, name, held]) => ({ name, mode: held })),
    behind: Array.from(rest.matchAll(/, behind (\w+)/g), ([, name]) => name),
  };
}

/** The numbers that a turn has printed, as its cell tells them. */
export function printedIn(cell) {
  return Array.from(cell.matchAll(/, prints (-?\d+)/g), ([, number]) => number);
}

// The turns of a run as a table: a row for each turn, a column for each thread.
import { keyText } from "./answers.js";
import { keySign, threadColour, threadSign } from "./signs.js";
import { button, element } from "./view.js";

const BEFORE = 60;
const BEHIND = 12;

function happening(moment, thread, cell) {
  const own = moment.events.find((event) => event.thread === thread);
  if (!own) return cell;
  const done = moment.turn === thread ? moment.done[0]?.text : null;
  if (own.deed === "take") return ["takes ", keySign(keyText(own.key), own.mode)];
  return done ? [element("code", {}, done), cell.replace(/^(act|local)/, "")] : cell;
}

function cellOf(moment, thread) {
  const cell = moment.cells[thread] ?? "";
  const own = moment.events.find((event) => event.thread === thread);
  const kind = own ? own.deed : cell.startsWith("waits") ? "waits" : cell ? "idle" : "";
  return element(
    "td", { class: kind ? `${kind} event ${threadColour(thread)}` : "" }, cell ? happening(moment, thread, cell) : "");
}

/** The rows round the moment that is looked at. `look` goes to the moment behind a turn. */
export function timeline({ moments, at }, program, look) {
  const first = Math.max(at - BEFORE, 1);
  const shown = moments.slice(first, at + BEHIND + 1);
  if (!shown.length) return element("p", { class: "quiet", "data-key": "timeline" }, "None.");
  const rows = shown.map((moment, place) => {
    const number = first + place;
    const when = number === at ? { class: "now", "aria-current": "step" } : { class: number > at ? "later" : "" };
    return element("tr", { "data-key": `turn-${number}`, ...when },
      element("th", { scope: "row" },
        button(String(number - 1), () => look(number), { title: `look at the moment behind turn ${number - 1}` })),
      program.threads.map((_, thread) => cellOf(moment, thread)));
  });
  const more = (count, where) => (count > 0 ? element("p", { class: "quiet" }, `${count} more ${where}`) : null);
  return element("div",
    { class: "scroll timeline", "data-key": "timeline", tabindex: 0, role: "group", "aria-label": "Turns so far" },
    more(first - 1, "before"),
    element("table", {},
      element("thead", {},
        element("tr", {}, element("th", { scope: "col" }, "turn"),
          program.threads.map(({ name }, thread) => element("th", { scope: "col" }, threadSign(name, thread))))),
      element("tbody", {}, rows)),
    more(moments.length - 1 - at - BEHIND, "behind"));
}

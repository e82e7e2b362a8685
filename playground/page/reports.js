// What is told of a text: in the text itself, and in a list below it, with what would mend it.
import { button, element, prose } from "./view.js";

/** What would mend a warning, as buttons that do it. */
function remediesOf(report, page) {
  const notes = report.notes.join("; ");
  const found = [];
  const k = notes.match(/`--k (\d)` would give/);
  if (k) found.push([`use k ${k[1]}`, () => page.setFields(k[1])]);
  const guard = notes.match(/`record (\w+) protected_by (\w+)` would give/);
  const protect = (text) => guarded(text, guard[1], guard[2]);
  if (guard) found.push([`protect ${guard[1]} by ${guard[2]}`, () => page.rewrite(protect)]);
  if (report.code === "all-for-one") found.push(["remove all", () => page.editor.replace(report.span, "atomic")]);
  if (report.code === "hint-without-use")
    found.push(["remove the hint", () => page.rewrite((text) => unguarded(text, report.span))]);
  return found;
}

/** The text with a hint behind the name of a record, where that is declared; comments are passed over. */
function guarded(text, record, guard) {
  const declared = new RegExp(`//[^\\n]*|\\brecord\\s+${record}\\b`, "g");
  return text.replace(declared, (found) => (found.startsWith("//") ? found : `${found} protected_by ${guard}`));
}

function unguarded(text, { start }) {
  const bytes = new TextEncoder().encode(text);
  const decoder = new TextDecoder();
  const rest = decoder.decode(bytes.subarray(start.offset));
  return decoder.decode(bytes.subarray(0, start.offset)) + rest.replace(/\s+protected_by\s+\w+/, "");
}

/** What is said of a report beside its title. */
function detailsOf({ labels, notes }) {
  return [...labels.map(({ message }) => message), ...notes];
}

/** The pieces of the text that reports are about. */
export function marksOf(reports) {
  return reports.filter(({ span }) => span).map((report) => ({
    span: report.span, name: report.severity === "error" ? "fault" : "doubt",
    title: [report.message, ...detailsOf(report)].join("\n"),
  }));
}

function item(report, page) {
  const { severity, message, span, labels } = report;
  const jumpTo = (place) => button(`${place.start.line}:${place.start.column}`, () => page.editor.select(place),
    { class: "place", title: "go there" });
  const remedies = remediesOf(report, page).map(([label, deed]) => button(label, deed, { class: "remedy" }));
  const elsewhere = labels.map((label) => label.span).filter((it) => it && it.start.offset !== span?.start.offset);
  return element("li", { class: severity },
    element("span", { class: "severity" }, severity === "error" ? "error" : "warning"),
    span ? jumpTo(span) : null, elsewhere.map(jumpTo),
    element("strong", {}, message),
    detailsOf(report).map((text) => element("p", {}, prose(text))), remedies);
}

const MOST = 50;

/** The list of all that is told. */
export function reportList(reports, page) {
  if (!reports.length) return element("p", { class: "quiet" }, "No mistake, and nothing that is worth a second look.");
  const more = reports.length > MOST ? element("li", { class: "quiet" }, `and ${reports.length - MOST} more`) : null;
  return element("ul", { class: "reports" }, reports.slice(0, MOST).map((report) => item(report, page)), more);
}

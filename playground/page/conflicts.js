// Which sections exclude each other: a matrix, and what a cell stands for.
import { counted, keyText } from "./answers.js";
import { term } from "./legend.js";
import { Program } from "./program.js";
import { threadSign } from "./signs.js";
import { refusal, View } from "./tab.js";
import { button, element } from "./view.js";

const WORDS = { exclude: "never together", where: "sometimes", together: "together" };
const SHORT = { exclude: "✕", where: "◐", together: "○" };
/** With more sections than this a cell has room for a sign alone. */
const WIDE = 10;

/** How many pairs go together, sometimes or always, of all. */
function freedom(pairs) {
  const count = (meet) => pairs.filter((pair) => pair.meet === meet).length;
  return { together: count("together"), where: count("where"), all: pairs.length };
}

/** By which key, or where, two sections exclude each other. */
export function meeting(pair) {
  if (pair.meet === "exclude")
    return [element("code", {}, keyText(pair.key)), " ", term(pair.modes[0]), term(pair.modes[1])];
  if (pair.meet === "together") return [];
  const place = ({ first, second }, number) =>
    [number ? " or " : "", element("code", {}, first), " is ", element("code", {}, second)];
  return ["where ", pair.paths.map(place)];
}

export class Conflicts extends View {
  constructor(page) {
    super(page, "Side by side", "pairs");
    this.chosen = null;
  }

  anew() {
    this.chosen = null;
  }

  get linked() {
    return this.chosen ?? undefined;
  }

  set linked(chosen) {
    this.chosen = chosen;
  }

  async show() {
    const { program } = this;
    const answer = await this.ask("conflicts", "--k", program.k);
    if (answer.status) {
      this.draw(refusal(answer));
      return;
    }
    this.pairs = answer.document.pairs;
    if (this.chosen && !Program.pairOf(this.pairs, ...this.chosen)) this.chosen = null;
    this.redraw();
  }

  choose(one, other) {
    this.chosen = [Math.min(one, other), Math.max(one, other)];
    this.page.light(this.chosen.map((number) => this.program.sections[number].place));
    this.redraw();
    this.page.remember();
  }

  redraw() {
    const { sections } = this.program;
    if (!this.pairs.length) {
      this.draw(element("p", { class: "empty" }, "There are no two sections of two threads, so nothing can meet."));
      return;
    }
    const { together, where, all } = freedom(this.pairs);
    this.draw(element("p", { class: "lead" }, "May two sections be in progress at the same time?"),
      element("p", { class: "measure" }, element("strong", {}, `${together} of ${all}`),
        ` ${all === 1 ? "pair goes" : "pairs go"} together`,
        where ? `, ${where} more where they touch different objects` : "", "."),
      element("div", { class: "scroll", tabindex: 0, role: "group", "aria-label": "Pairs of sections" },
        this.matrix(sections)),
      this.told());
  }

  head(number, scope) {
    const { thread, place } = this.program.sections[number];
    return element("th", { scope }, threadSign(this.program.threadName(thread), thread),
      element("span", { class: "quiet" }, ` ${number}, line ${place.start.line}`));
  }

  matrix(sections) {
    const isWide = sections.length <= WIDE;
    const numbers = sections.map((_, number) => number);
    return element("table", { class: `matrix${isWide ? "" : " small"}` },
      element("thead", {}, element("tr", {}, element("td", {}), numbers.map((number) => this.head(number, "col")))),
      element("tbody", {},
        numbers.map(
          (one) => element("tr", {}, this.head(one, "row"), numbers.map((other) => this.cell(one, other, isWide))))));
  }

  cell(one, other, isWide) {
    const pair = Program.pairOf(this.pairs, one, other);
    if (!pair)
      return element(
        "td", { class: "none", title: one === other ? "" : "two sections of one thread come one after the other" });
    const isChosen = this.chosen?.includes(one) && this.chosen.includes(other);
    const title = `sections ${pair.first} and ${pair.second}: ${WORDS[pair.meet]}`;
    const label = isWide
      ? [element("span", { class: "sign", "aria-hidden": "true" }, SHORT[pair.meet]), ` ${WORDS[pair.meet]}`]
      : SHORT[pair.meet];
    return element("td", { class: pair.meet },
      button(label, () => this.choose(one, other),
        { title, "aria-label": title, "aria-pressed": String(Boolean(isChosen)) }));
  }

  told() {
    if (!this.chosen) {
      return element(
        "p", { class: "told", "data-key": "hint" }, "Choose a cell to see by what two sections exclude each other.");
    }
    const pair = Program.pairOf(this.pairs, ...this.chosen);
    const reason = {
      exclude: "Whatever the state, the first asks for this key in the first mode, the second in the second, and "
        + "these don't "
        + "go together.",
      where: "They wait for each other only while these paths lead to one object.",
      together: `In no state does one of them ask for a key that keeps the other out. So they run side by side.`,
    }[pair.meet];
    return element("div", { class: `told ${pair.meet}`, "data-key": "told", "aria-live": "polite" },
      element("p", {}, element("strong", {}, `${this.program.titleOf(pair.first)}`), " and ",
        element("strong", {}, this.program.titleOf(pair.second)), ": ", WORDS[pair.meet], " ", meeting(pair)),
      element("p", { class: "quiet" }, reason));
  }
}

/** A number for it, in words. */
export function freedomText(pairs) {
  const { together, where, all } = freedom(pairs);
  return `${together} of ${counted(all, "pair")} together${where ? `, ${where} sometimes` : ""}`;
}

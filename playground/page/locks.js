// The locks of each section, and for each the chain of steps from the section's entry to where it is needed.
import { lockText } from "./answers.js";
import { term } from "./legend.js";
import { lockClass, lockParts, lockSign, threadSign } from "./signs.js";
import { View } from "./tab.js";
import { button, element, prose } from "./view.js";

/** More steps than this in a row under one name are shown by so few at either end. */
const LONG = 24;
const FEW = 4;

/** Why a lock is called otherwise behind a statement than before it. */
function reasonOf(before, text, after) {
  if (lockText(before) === lockText(after)) return null;
  if (before.kind === "class" && after.kind === "path") {
    return `Before \`${
      text}\` this path would have more fields than k allows, so the lock on its whole class stands in its place.`;
  }
  if (before.kind === "path" && after.kind === "path")
    return `Before \`${text}\` the object of \`${after.path}\` is called \`${before.path}\`.`;
  return `Before \`${text}\` the lock \`${lockText(after)}\` is \`${lockText(before)}\`.`;
}

/**
 * The numbers of the steps that are shown; of many in a row under one name the first and the last few are, and how many
 * are left out stands between them, below zero.
 */
function shownSteps(steps) {
  const shown = [];
  for (let first = 0; first < steps.length;) {
    const name = lockText(steps[first].lock);
    let end = first;
    while (end < steps.length && lockText(steps[end].lock) === name) end++;
    const numbers = Array.from({ length: end - first }, (_, place) => first + place);
    if (numbers.length > LONG) shown.push(...numbers.slice(0, FEW), 2 * FEW - numbers.length, ...numbers.slice(-FEW));
    else shown.push(...numbers);
    first = end;
  }
  return shown;
}

export class Locks extends View {
  constructor(page) {
    super(page, "Locks", "locks");
    this.chosen = null;
  }

  anew() {
    this.chosen = null;
  }

  get linked() {
    return this.chosen ? [this.chosen.section, this.chosen.lock] : undefined;
  }

  set linked([section, lock]) {
    this.chosen = { section, lock };
  }

  /** The chosen lock's chain, if it is still there. */
  get chain() {
    return this.chosen && this.program.sections[this.chosen.section]?.chains[this.chosen.lock];
  }

  show() {
    if (!this.chain) this.chosen = null;
    this.light();
    this.redraw();
  }

  /** Shows the chain of a lock, and lights its steps up in the text. */
  choose(section, lock) {
    const isChosen = this.chosen?.section === section && this.chosen.lock === lock;
    this.chosen = isChosen || !this.program.sections[section].chains[lock] ? null : { section, lock };
    this.light();
    this.redraw();
    this.page.remember();
  }

  light() {
    this.page.light(
      this.chain ? this.program.spansOf(this.chosen.section, this.chain.steps.map(({ node }) => node)) : []);
  }

  redraw() {
    const { sections } = this.program;
    if (!sections.length) {
      this.draw(element(
        "p", { class: "empty" }, prose("There is no `atomic` section in this program, so no lock is needed.")));
      return;
    }
    const promise = " takes these locks when it begins. They are enough for every path of control, and no "
      + "smaller set is. ";
    this.draw(
      element("p", { class: "lead" }, "Each ", term("section", "section"), promise,
        element("em", {}, "Choose one to see why.")),
      element("ol", { class: "cards" }, sections.map((section) => this.card(section))));
  }

  card({ section, thread, place, chains, locks }) {
    const isOpen = this.chosen?.section === section;
    return element("li", { class: "card", "data-key": `section-${section}` },
      element("header", {}, threadSign(this.program.threadName(thread), thread),
        element("span", { class: "quiet" }, `section ${section}, line ${place.start.line}`)),
      element("div", { class: "chips" }, locks.length ? locks.map((lock, number) => this.chip(section, lock, number))
        : element("span", { class: "quiet" }, "no lock: nothing here is shared")),
      isOpen && chains.length ? this.steps() : null);
  }

  chip(section, lock, number) {
    const isChosen = this.chosen?.section === section && this.chosen.lock === number;
    return button(lockParts(lock), () => this.choose(section, number),
      { class: lockClass(lock), "aria-pressed": String(isChosen), "data-key": lockText(lock) });
  }

  steps() {
    const { section } = this.chosen;
    const { steps } = this.chain;
    const last = steps.at(-1);
    return element("div", { class: "chain" }, element("h2", {}, "Why ", lockSign(steps[0].lock), "?"),
      element("p", {},
        prose(`Read from below: \`${last.text}\` needs \`${
          lockText(last.lock)}\`. Each step up says what that object is called there.`)),
      element("ol", { start: 0 }, shownSteps(steps).map((number) => this.step(section, steps, number))));
  }

  step(section, steps, number) {
    if (number < 0) return element("li", { class: "quiet" }, `${-number} steps more, under the same name`);
    const { node, text, lock } = steps[number];
    const reason = steps[number + 1] && reasonOf(lock, text, steps[number + 1].lock);
    return element("li", { class: number === steps.length - 1 ? "needs" : "" },
      button(text, () => this.page.light(this.program.spansOf(section, [node])), {
        class: "step", ...this.page.pointing(() => this.program.spansOf(section, [node])),
      }), lockSign(lock),
      reason ? element("p", { class: "reason" }, prose(reason)) : null);
  }
}

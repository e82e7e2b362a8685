// A view of the program: a tab with a panel of its own, into which nothing else draws.
import { Refused, Stopped } from "./sectc.js";
import { button, element, prose, update } from "./view.js";

export class View {
  /** `name` is the tab's, `key` its name in a link. */
  constructor(page, name, key) {
    Object.assign(this, { page, name, key });
    this.panel = element("div",
      { id: `panel-${key}`, role: "tabpanel", "aria-labelledby": `tab-${key}`, class: "panel", hidden: true });
  }

  /** The program. */
  get program() {
    return this.page.program;
  }

  /** The text has changed. What hangs on the old one is of no use. */
  forget() {}

  /** The cursor has come to a place of the text, with line and column from 1. */
  pointAt() {}

  /** Another program is opened. What was chosen in the old one isn't kept. */
  anew() {}

  /** Draws into the panel, in place of what is there. */
  draw(...parts) {
    update(this.panel, ...parts);
  }

  /** Shows the view, and what went wrong where that is. */
  async open() {
    if (!this.program) return;
    if (this.program.isRefused) {
      this.draw(element("div", { class: "empty", "data-key": "refused" },
        element("p", {}, prose("This text is no program yet. ")),
        button("go to the mistake", () => this.page.toFirstReport())));
      return;
    }
    await this.work(() => this.show());
  }

  /** Does what asks the program. What is stopped is said, what is out of date isn't. */
  async work(deed) {
    const { version } = this.page;
    this.page.deeds++;
    try {
      await deed();
    } catch (failure) {
      if (!(failure instanceof Stopped || failure instanceof Refused)) throw failure;
      if (version === this.page.version) {
        this.draw(element("div", { class: "empty", "data-key": "stopped" },
          element("p", {}, `No answer: ${failure.message}.`), button("ask again", () => this.open())));
      }
    } finally {
      this.page.deeds--;
    }
  }

  /** Asks for a document of the text. */
  ask(...words) {
    return this.page.askDocument(words);
  }

  /** What this view adds to a link, and takes from one. */
  get linked() {
    return undefined;
  }

  set linked(_words) {}
}

/** What a view says where the program refuses. */
export function refusal({ text, status }) {
  return element(
    "p", { class: "refused", "data-key": "refusal" }, text.trim() || `The program ended with status ${status}.`);
}

// Everything that a run can come to: grouped by what differs, asked by a condition, and held against the same program
// without its sections.
import { counted } from "./answers.js";
import { canBeTakenApart, takenApart } from "./apart.js";
import { BadCondition, conditionOf } from "./condition.js";
import { differences, identityOf, sorted } from "./grouping.js";
import { threadColour } from "./signs.js";
import { refusal, View } from "./tab.js";
import { button, element, prose } from "./view.js";

/** How much each thread may do, in steps; a thread that goes round for ever ends then. */
const FUEL = 1000;
const MOST = 20000;
const MOST_APART = 4000;
const SHOWN = 100;
/** A longer text isn't taken apart, in letters: it has more moments than can be listed. */
const LONG = 20_000;

function whichWay(count) {
  return `Whatever the interleaving, every run comes to ${count === 1 ? "this" : "one of these"}.`;
}

export class Outcomes extends View {
  constructor(page) {
    super(page, "Outcomes", "outcomes");
    this.condition = "";
    this.forget();
  }

  anew() {
    this.condition = "";
  }

  get linked() {
    return this.condition || undefined;
  }

  set linked(condition) {
    this.condition = String(condition);
  }

  forget() {
    this.answer = null;
    this.apart = null;
    this.isLong = false;
  }

  get names() {
    return this.program.threads.map(({ name }) => name);
  }

  words(most) {
    return ["outcomes", "--fuel", String(FUEL), "--most", String(most)];
  }

  async show(most = MOST) {
    if (!this.answer) {
      if (!this.panel.hasChildNodes())
        this.draw(element("p", { class: "quiet" }, "Going through everything that can happen .."));
      const answer = await this.ask(...this.words(most));
      if (answer.status) {
        this.refuse(answer, most);
        return;
      }
      this.answer = answer.document;
    }
    this.redraw();
    if (!this.apart && this.program.text.length < LONG && canBeTakenApart(this.program.text)) {
      await this.takeApart();
      this.redraw();
    }
  }

  refuse(answer, most) {
    if (!/TooManyStates/.test(answer.text)) {
      this.draw(refusal(answer));
      return;
    }
    this.draw(element("div", { class: "empty", "data-key": "many" },
      element("p", {},
        prose(`This program has more than ${most.toLocaleString("en")} moments between ` +
          "its sections, too many to go through. A loop that waits for another thread makes a new one in each round.")),
      button(`go through ${(most * 5).toLocaleString("en")}`, () => this.work(() => this.show(most * 5)))));
  }

  async takeApart() {
    const text = takenApart(this.program.text);
    const answer = await this.page.askDocument(this.words(MOST_APART), text);
    this.apart = { program: text, ...answer };
  }

  redraw() {
    const { outcomes, states } = this.answer;
    const apart = this.apart?.document?.outcomes ?? [];
    const difference = differences([...outcomes, ...apart], this.names);
    this.draw(element("h2", { id: "count" }, `${counted(outcomes.length, "outcome")} of ${counted(states, "state")}`),
      element("p", { class: "lead" }, whichWay(outcomes.length)),
      this.question(outcomes, difference.columns),
      element("div", { class: "beside" },
        element("section", { "aria-label": "With its sections" }, element("h3", {}, "With its sections"),
          this.list(outcomes, difference, 0)),
        this.apartSection(difference)),
      this.sameInAll(difference));
  }

  /** The field for a condition, with its answer. */
  question(outcomes, columns) {
    const example = columns.find((key) => key.includes("."))
      ?? `${this.program.document.sites[0]?.global ?? "a"}.${this.program.document.sites[0]?.fields[0]?.name ?? "f"}`;
    const ask = (event) => {
      this.condition = event.target.value;
      this.page.remember();
      this.redraw();
    };
    return element("div", { class: "question", "data-key": "question" },
      element("label",
        { for: "condition"
        },
        "Can it be that"),
      element("input", {
        id: "condition",
        value: this.condition,
        placeholder: `${example} == 1`,
        spellcheck: "false",
        autocomplete: "off",
        autocapitalize: "off",
        oninput: ask,
        "aria-describedby": "verdict",
        title: "a.f == 1, print == [5], thread p == null, && || ! ( )"
      }),
      element("span", {}, "?"), element("output", {
        id: "verdict", for: "condition"
      }, this.verdict(outcomes)));
  }

  /** The test of the condition; nothing where there is none, and what is wrong where it is no condition. */
  get test() {
    if (!this.condition.trim()) return null;
    try {
      return conditionOf(this.condition,
        { globals: this.program.document.sites.map((site) => site.global).filter(Boolean), threads: this.names });
    } catch (fault) {
      if (fault instanceof BadCondition) return fault.message;
      throw fault;
    }
  }

  verdict(outcomes) {
    const { test } = this;
    if (!test) return element("span", { class: "quiet" }, "as a.bal == 1 && thread p == done");
    if (typeof test === "string") return element("span", { class: "trouble" }, prose(test));
    const holds = outcomes.filter(test);
    if (!holds.length) return element("strong", { class: "no" }, "No, in no outcome.");
    const all = outcomes.length === 1 ? "the one outcome" : `all ${outcomes.length}`;
    const some = `${holds.length} of ${outcomes.length}`;
    const word = holds.length === outcomes.length ? `Yes, always: in ${all}.` : `Yes, in ${some}.`;
    return [
      element("strong", { class: "yes" }, word),
      button("show how", () => this.page.replay(holds[0].order, FUEL), { class: "witness" })
    ];
  }

  /** A table of outcomes, a row each, with what they differ in. `from` is where they stand among all. */
  list(outcomes, { columns, rows }, from, isOld) {
    const own = rows.slice(from, from + outcomes.length);
    const test = typeof this.test === "function" ? this.test : () => false;
    const order = sorted(own, columns);
    const shown = this.isLong ? order : order.slice(0, SHOWN);
    const body = shown.map((number) => {
      const outcome = outcomes[number];
      const isNew = isOld && !isOld(outcome);
      return element("tr", { class: `${test(outcome) ? "holds" : ""}${isNew ? " wrong" : ""}` },
        columns.map((key) => element("td", {}, own[number].get(key) ?? "isn't there")),
        isOld ? element("td", {}, isNew ? "never" : "yes") : null,
        element("td", {}, this.orderSigns(outcome.order)), element("td", {}, this.replayButton(outcome, isOld)));
    });
    const heads = [...columns, ...(isOld ? ["with sections"] : []), "order", ""];
    const more = order.length - shown.length;
    return element("div", {
      class: "scroll",
      tabindex: 0,
      role: "group",
      "aria-label": isOld ? "Outcomes without sections" : "Outcomes"
    },
      element("table", { class: "outcomes" },
        element("thead", {},
          element("tr", {}, heads.map((head) => (head ? element("th", { scope: "col" }, head) : element("td", {}))))),
        element("tbody", {}, body)),
      more > 0 ? button(`show ${more} more`, () => {
        this.isLong = true;
        this.redraw();
      }) : null);
  }

  orderSigns(order) {
    if (!order.length) return "none";
    const most = 12;
    return element("span", { class: "order" },
      order.slice(0, most).map(
        (thread) => element("span", { class: `thread ${threadColour(thread)}` }, this.names[thread])),
      order.length > most ? ` and ${order.length - most} more` : null);
  }

  replayButton({ order }, isApart) {
    const replay = () =>
      (isApart ? this.page.replayText(this.apart.program, order, FUEL) : this.page.replay(order, FUEL));
    return button("replay", replay, {
      title: isApart ? "opens this program, and replays the order as a schedule" : "replays this order as a schedule"
    });
  }

  apartSection(difference) {
    if (!this.apart) return null;
    const heading = element("h3", {}, "Without them, statement by statement");
    const label = { "aria-label": "Without its sections", class: "apart" };
    if (this.apart.status) {
      return element("section", label, heading,
        element("p", { class: "quiet" },
          /TooManyStates/.test(this.apart.text)
            ? `More than ${MOST_APART.toLocaleString("en")} moments: too many to list.`
            : "The program can't be taken apart."));
    }
    const { outcomes } = this.apart.document;
    const known = new Set(this.answer.outcomes.map((outcome) => identityOf(outcome, this.names)));
    const isOld = (outcome) => known.has(identityOf(outcome, this.names));
    const wrong = outcomes.filter((outcome) => !isOld(outcome)).length;
    const said =
      wrong ? `${counted(wrong, "outcome")} more that the sections keep away.` : "Nothing else can come of it here.";
    return element("section", label, heading, this.list(outcomes, difference, this.answer.outcomes.length, isOld),
      element("p", { class: wrong ? "trouble" : "quiet" }, said),
      button("open this program", () => this.page.openText(this.apart.program, null)));
  }

  sameInAll({ same, columns }) {
    if (!same.length) return null;
    return element("details", { class: "same", open: !columns.length, "data-key": columns.length ? "same" : "all" },
      element("summary", {}, "The same in all outcomes"),
      element("dl", { class: "locals" },
        same.map(([key, value]) => element("div", {}, element("dt", {}, key), element("dd", {}, value)))));
  }
}

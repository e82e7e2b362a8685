// The tour: eight programs, each with a question that is answered by trying.
import { button, element, prose, update } from "./view.js";
import { TITLES } from "./titles.js";

export const STEPS = [
  {
    example: "lost_update",
    view: "outcomes",
    text: "Two threads add 1 to one account. Every read and every write stands in a section of its own, `atomic`, "
      + "so none "
      + "is disturbed.",
    question: "What can the account be in the end?",
    trial: "Look at the outcomes on the right, and replay the odd one turn by turn.",
    choices: ["2, always", "1 or 2", "0, 1 or 2"],
    right: 1,
    after: "Both read 0 before either writes, so the second write takes away what the first has added. Reading and "
      + "writing "
      + "belong together.",
  },
  {
    example: "two_threads",
    view: "schedule",
    text: "Now each thread reads, adds and writes in one section. The compiler finds the lock for it: `W a`, to write "
      + "`a`, and so to read it.",
    question: "p is in its section. What does q wait for?",
    trial: "Give p five turns, and then q turns until it waits.",
    choices: ["nothing: it runs beside p", "the key `a`, which p holds in mode X", "`class 0`, all accounts"],
    right: 1,
    after: "Both hold `all` and `class 0` in IX, the intention to write something below, and IX goes with IX. X on `a` "
      + "goes with nothing.",
  },
  {
    example: "linked_list",
    view: "locks",
    text: "One thread sums a list while another pushes a node. When the first begins, nobody knows which nodes it will "
      + "meet.",
    question: "Why does it lock all of `class 1`?",
    trial: "Choose `R class 1` on the right and read its chain from below.",
    choices: ["for `v = p.val` in the third round of the loop", "for the test `p != null`", "for `print s`"],
    right: 0,
    after: "In the third round `p` is `head.next.next.next` as seen from the entry: three fields, and k allows "
      + "two. So the "
      + "lock is on the whole class.",
  },
  {
    example: "changed_path",
    view: "schedule",
    text: "r reads what `head.next` leads to. w stores another object there meanwhile. So r may have looked its "
      + "path up "
      + "too early.",
    question: "What does r do if w comes between?",
    trial: "Give r one turn, let w do its section, and then go on with r up to its second look.",
    choices: ["it reads the wrong object", "`again`: it gives all keys back and starts over", "it waits for ever"],
    right: 1,
    after: "Once a thread holds all its keys it looks its paths up a second time. Where one leads elsewhere now, "
      + "it starts "
      + "over.",
  },
  {
    example: "protected",
    view: "compare",
    text: "A record may say that one object protects all of its kind: `protected_by g`. Then one lock stands for "
      + "theirs.",
    question: "What does the section take without the words `protected_by g`?",
    trial: "Delete them in the text, and compare with the text as it was opened.",
    choices: ["`W c, R d`", "`W class 1`", "the same"],
    right: 0,
    after: "One lock in place of two is cheaper. The price: sections that touch different cells now wait for each "
      + "other.",
  },
  {
    example: "procedure",
    view: "schedule",
    text: "p moves money from a to b, q from b to a. By hand that is the classic deadlock: each holds one account and "
      + "waits for the other's.",
    question: "Can both threads wait at the same time?",
    trial: "Give turns as you like, and try to get there.",
    choices: ["yes, once each holds one account", "no: keys are taken in one order", "only with a third thread"],
    right: 1,
    after: "Whoever holds the greatest key that somebody waits for waits for nothing itself, so it can go on. That is "
      + "proved for every program.",
  },
  {
    example: "locks_everything",
    view: "locks",
    text: "`atomic all` takes one lock that keeps every other section out. Here that is too much, and the list "
      + "below the "
      + "text says so.",
    question: "What would the section take without `all`?",
    trial: "Press `remove all` below the text.",
    choices: ["`R a`", "`W a`", "`W all`"],
    right: 0,
    after: "The section only reads `a`. Beside it other sections may read `a` as well, and write everything else.",
  },
  {
    example: "one_class",
    view: "pairs",
    text: "`x` may refer to a or to b, so both are of one class. p locks what `x` is when its section begins; q "
      + "locks b.",
    question: "May both sections be in progress at once?",
    trial: "Choose the cell on the right; then let p begin in the schedule, and q beside it.",
    choices: ["never", "unless `x` is b", "only if q comes first"],
    right: 1,
    after: "A lock on a path is on the one object that the path leads to. Here `x` is a by then, so the two never "
      + "wait for "
      + "each other.",
  },
];

export class Tour {
  constructor(page, place) {
    Object.assign(this, { page, place });
    this.step = null;
    this.answers = new Map();
  }

  /** Goes to a step, with its program; nothing ends the tour. */
  async go(step) {
    this.step = step;
    this.draw();
    if (step !== null) await this.page.openExample(STEPS[step].example, STEPS[step].view);
    this.page.remember();
  }

  /** Ends the tour, since the reader goes a way of their own. */
  leave() {
    this.show(null);
    return this.page;
  }

  /** Shows a step, whose program is there. */
  show(step) {
    this.step = STEPS[step] ? step : null;
    this.draw();
  }

  draw() {
    this.place.hidden = this.step === null;
    if (this.step === null) {
      update(this.place);
      return;
    }
    const { example, view, text, question, trial } = STEPS[this.step];
    const isAnswered = this.answers.get(this.step) === STEPS[this.step].right;
    const move = (label, to, isNext) => button(label, () => STEPS[to] && this.go(to),
      { "aria-disabled": String(!STEPS[to]), "data-key": label, class: isNext && STEPS[to] ? "main" : "" });
    update(this.place,
      element("header", {}, element("span", { class: "count" }, `Tour ${this.step + 1} of ${STEPS.length}`),
        element("h2", {}, TITLES[example]), element("span", { class: "spring" }), move("Back", this.step - 1),
        move("Next", this.step + 1, isAnswered),
        button("✕", () => this.go(null), { "aria-label": "end the tour", title: "end the tour" })),
      element("p", {}, prose(text)),
      element("p", { class: "asks" }, element("strong", {}, prose(question)), " ",
        element("span", { class: "quiet" }, prose(trial)), " ",
        button("show me where", () => this.page.openView(view), { class: "plain" })),
      this.choices(), this.told());
  }

  choices() {
    const { choices, right } = STEPS[this.step];
    const given = this.answers.get(this.step);
    const answer = (choice) => () => { this.answers.set(this.step, choice); this.draw(); };
    return element("div", { class: "choices", role: "group", "aria-label": "Answers" },
      choices.map((label, choice) => button(prose(label), answer(choice), {
        "aria-pressed": String(given === choice),
        class: given === choice ? (choice === right ? "right" : "wrong") : ""
      })));
  }

  told() {
    const { right, after } = STEPS[this.step];
    const given = this.answers.get(this.step);
    if (given === undefined) return element("p", { class: "after", "aria-live": "polite", hidden: true });
    return element("p", { class: `after ${given === right ? "yes" : "no"}`, "aria-live": "polite" },
      element("strong", {}, given === right ? "Yes. " : "Not so. "),
      given === right ? prose(after) : "Try it, and answer again.");
  }
}

// Two variants side by side: other k, or the text before and after an edit. Which locks went, and which pairs now go
// together.
import { lockText } from "./answers.js";
import { freedomText, meeting } from "./conflicts.js";
import { Program } from "./program.js";
import { lockClass, lockParts, threadSign } from "./signs.js";
import { View } from "./tab.js";
import { button, element } from "./view.js";

const FIELDS = ["0", "1", "2", "3"];
const MEETS = { exclude: "never together", where: "sometimes together", together: "together" };

export class Compare extends View {
  constructor(page) {
    super(page, "Compare", "compare");
    this.first = "opened";
    this.second = "now";
    this.kept = null;
  }

  anew() {
    [this.first, this.second] = ["opened", "now"];
  }

  get linked() {
    return [this.first, this.second];
  }

  set linked([first, second]) {
    [this.first, this.second] = [first, second];
  }

  /** The variants that there are, each with a text and a k. */
  get variants() {
    const { text, k } = this.program;
    const opened = this.page.opened;
    return [
      { name: "now", label: `this text, k ${k}`, text, k },
      ...(opened !== text ? [{ name: "opened", label: "the text as it was opened", text: opened, k }] : []),
      ...(this.kept !== null ? [{ name: "kept", label: "the text that was kept", text: this.kept, k }] : []),
      ...FIELDS.map((fields) => ({ name: `k${fields}`, label: `this text, k ${fields}`, text, k: fields })),
    ];
  }

  variant(name, other) {
    const { variants } = this;
    return variants.find((it) => it.name === name) ?? variants.find((it) => it.name === other);
  }

  async show() {
    const [before, after] = [this.variant(this.first, "k0"), this.variant(this.second, "now")];
    const known = await Promise.all([before, after].map((variant) => this.known(variant)));
    this.redraw(before, after, known);
  }

  async known({ text, k }) {
    const [inspected, met] = await Promise.all(["inspect", "conflicts"].map((command) =>
      this.page.ask([command, "--k", k, ...(command === "inspect" ? [] : ["--format", "json"])], "view", text)));
    if (inspected.status) return null;
    return { program: new Program({ text, k }, inspected, { text: "" }), pairs: JSON.parse(met.text).pairs };
  }

  choose(which) {
    return (event) => {
      this[which] = event.target.value;
      this.page.remember();
      this.open();
    };
  }

  picker(which, chosen, label) {
    return element("label", {}, `${label} `,
      element("select", { onchange: this.choose(which), "aria-label": label },
        this.variants.map(
          ({ name, label: text }) => element("option", { value: name, selected: name === chosen.name }, text))));
  }

  redraw(before, after, [old, now]) {
    const keep = () => {
      this.kept = this.program.text;
      this.first = "kept";
      this.page.say("The text is kept to compare with.");
      this.open();
    };
    const controls = element("div", { class: "controls", "data-key": "controls" },
      this.picker("first", before, "before"), this.picker("second", after, "after"),
      button("keep this text", keep, { title: "to compare with it after an edit" }));
    if (!old || !now) {
      this.draw(controls, element("p", { class: "refused" }, "One of the two texts is no program."));
      return;
    }
    this.draw(controls, this.measures(old, now), this.sections(old.program, now.program), this.pairs(old, now));
  }

  measures(old, now) {
    const locks = ({ program }) => program.sections.reduce((sum, section) => sum + section.locks.length, 0);
    const row = (name, one, other) => element("tr", {}, element("th", { scope: "row" }, name), element("td", {}, one),
      element("td", { class: one === other ? "" : "changed" }, other));
    return element("table", { class: "measures" }, element("caption", {}, "In numbers"),
      element("thead", {},
        element("tr", {}, element("td", {}), element("th", { scope: "col" }, "before"),
          element("th", { scope: "col" }, "after"))),
      element("tbody", {}, row("pairs of sections", freedomText(old.pairs), freedomText(now.pairs)),
        row("locks", String(locks(old)), String(locks(now)))));
  }

  sections(old, now) {
    const count = Math.max(old.sections.length, now.sections.length);
    const rows = Array.from({ length: count }, (_, number) => {
      const [one, other] = [old.sections[number]?.locks ?? [], now.sections[number]?.locks ?? []];
      const texts = [one, other].map((locks) => new Set(locks.map(lockText)));
      const chips = (locks, others, kind) => locks.map((lock) =>
        element("span", { class: `${lockClass(lock)} ${others.has(lockText(lock)) ? "" : kind}` }, lockParts(lock)));
      const program = now.sections[number] ? now : old;
      return element("tr", {},
        element("th", { scope: "row" },
          threadSign(program.threadName(program.sections[number].thread), program.sections[number].thread),
          ` section ${number}`),
        element("td", {}, one.length ? chips(one, texts[1], "gone") : "none"),
        element("td", {}, other.length ? chips(other, texts[0], "new") : "none"));
    });
    return element("table", { class: "variants" }, element("caption", {}, "Which locks went, and which came"),
      element("thead", {},
        element("tr", {}, ["section", "before", "after"].map((head) => element("th", { scope: "col" }, head)))),
      element("tbody", {}, rows));
  }

  pairs(old, now) {
    const changed = now.pairs.flatMap((pair) => {
      const before = Program.pairOf(old.pairs, pair.first, pair.second);
      return before && before.meet !== pair.meet ? [{ before, pair }] : [];
    });
    if (!changed.length)
      return element("p", { class: "quiet", "data-key": "pairs" }, "Each pair of sections meets as before.");
    return element("div", { "data-key": "changed" }, element("h2", {}, "Pairs that meet otherwise"),
      element("ul", { class: "changes" },
        changed.map(
          ({ before, pair }) => element("li", { class: pair.meet },
            element("strong", {}, `sections ${pair.first} and ${pair.second}`), ": ",
            element("s", {}, MEETS[before.meet], " ", meeting(before)), " → ", MEETS[pair.meet], " ",
            meeting(pair)))));
  }
}

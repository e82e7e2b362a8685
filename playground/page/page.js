// The page: the program's text on the left, what sectc says of it on the right.
import { documentOf, refusalLine } from "./answers.js";
import { Compare } from "./compare.js";
import { Conflicts } from "./conflicts.js";
import { Editor } from "./editor.js";
import { Graph } from "./graph.js";
import { keep } from "./keep.js";
import { BadLink, LONGEST, read, written } from "./link.js";
import { Locks } from "./locks.js";
import { Outcomes } from "./outcomes.js";
import { Program } from "./program.js";
import { marksOf, reportList } from "./reports.js";
import { Schedule } from "./schedule.js";
import { Stopped } from "./sectc.js";
import { lockClass, lockParts } from "./signs.js";
import { Tabs } from "./tabs.js";
import { Tour } from "./tour.js";
import { button, element, update } from "./view.js";

/** How long a key waits for the next one, in milliseconds: at least and at most. */
const WAIT = [10, 400];
const REMEMBERED = 300;
/** A question that takes longer than this is shown to be at work. */
const LONG = 150;
const MOST_LIT = 400;

function byId(id) {
  return document.getElementById(id);
}

export class Page {
  constructor(sectc, examples) {
    this.examples = examples;
    this.sectc = sectc;
    sectc.changed = () => this.showWork();
    this.editor = new Editor(byId("code"), {
      changed: () => this.changed(), stops: () => this.remember(), moved: (place) => this.moved(place),
    });
    this.views = [Locks, Graph, Conflicts, Schedule, Outcomes, Compare].map((View) => new View(this));
    this.tabs = new Tabs(byId("tabs"), byId("panels"), this.views, (view) => this.openView(view.key));
    this.tour = new Tour(this, byId("tour"));
    this.program = null;
    this.version = 0;
    this.took = 0;
    this.deeds = 0;
    this.opened = "";
    this.view = this.views[0];
  }

  get k() {
    return byId("fields").value;
  }

  /** Whether all is shown that was asked for. */
  get isSettled() {
    return this.program?.version === this.version && this.deeds === 0 && !this.sectc.isBusy;
  }

  setFields(k) {
    byId("fields").value = k;
    this.changed();
  }

  /** Asks the program of the text, or of another one. Fails with `Stopped` where the text has changed meanwhile. */
  async ask(words, lane = "view", text = this.editor.text) {
    const { version } = this;
    const answer = await this.sectc.ask(words, text, lane);
    if (version !== this.version) throw new Stopped("the text has changed");
    return answer;
  }

  /** The same, as a document where it isn't refused. */
  async askDocument(words, text) {
    const answer = await this.ask([...words, "--format", "json"], "view", text);
    return answer.status ? { ...answer, text: refusalLine(answer.text) } : { ...answer, document: documentOf(answer.text) };
  }

  /** The text has changed: what is shown is made anew, a little after the last key. */
  changed() {
    this.version++;
    this.views.forEach((view) => view.forget());
    this.sectc.drop("the text has changed");
    clearTimeout(this.timer);
    this.timer = setTimeout(() => this.refresh(), Math.min(Math.max(this.took / 2, WAIT[0]), WAIT[1]));
    this.remember();
  }

  /** Asks what is known of the text, and shows it. */
  async refresh() {
    clearTimeout(this.timer);
    this.deeds++;
    const begun = performance.now();
    const asked = { text: this.editor.text, k: this.k, version: this.version };
    try {
      const [inspected, linted] = await Promise.all([
        this.ask(["inspect", "--k", this.k], "key"), this.ask(["lint", "--k", this.k, "--format", "json"], "key")]);
      this.took = performance.now() - begun;
      this.program = new Program(asked, inspected, linted);
      this.judge();
      if (!performance.getEntriesByName("first answer").length) performance.mark("first answer");
      await this.view.open();
    } catch (failure) {
      if (!(failure instanceof Stopped)) throw failure;
      if (asked.version === this.version) this.say(`No answer: ${failure.message}.`);
    } finally {
      this.deeds--;
    }
  }

  /** Shows the locks beside the sections, and what is told of the text. */
  judge() {
    const { reports, sections } = this.program;
    this.editor.show("reports", marksOf(reports.slice(0, MOST_LIT)));
    this.editor.put("locks", sections.map(({ section, place, locks }) =>
      ({ span: place, key: `${section} ${JSON.stringify(locks)}`, make: () => this.inlay(section, locks) })));
    byId("reports").classList.toggle("bad", this.program.isRefused);
    update(byId("reports"), reportList(reports, this));
    byId("state").textContent = this.program.isRefused ? "refused" : `${Math.max(Math.round(this.took), 1)} ms`;
  }

  /** The locks behind a section's `atomic`. */
  inlay(section, locks) {
    const choose = (lock) => this.openView("locks").then(() => this.views[0].choose(section, lock));
    const chip = (lock, number) =>
      button(lockParts(lock), () => choose(number), { class: lockClass(lock), title: "why?", tabindex: -1 });
    const chips = locks.map(chip);
    return element("span", { class: "inlay" }, chips.length ? chips : element("span", { class: "quiet" }, "no lock"));
  }

  /** Lights pieces of the text up, and brings the first into sight. */
  light(spans) {
    this.editor.show("lit", spans.slice(0, MOST_LIT).map((span) => ({ span, name: "lit" })));
    if (spans.length) this.editor.reveal(spans[0]);
  }

  /** Listeners that mark pieces of the text while the pointer is at what they belong to. */
  pointing(spans) {
    const mark = (pieces) => this.editor.show("pointed", pieces.map((span) => ({ span, name: "pointed" })));
    return { onpointerenter: () => mark(spans()), onpointerleave: () => mark([]) };
  }

  /** Lights up where threads are; `shown` is brought into sight. */
  lightThreads(pieces, shown) {
    this.editor.show("threads", pieces);
    if (shown) this.editor.reveal(shown);
  }

  /** The cursor has moved: the view may mark what belongs to its place. */
  moved(place) {
    if (this.program?.version === this.version && !this.program.isRefused) this.view.pointAt(place);
  }

  toFirstReport() {
    const report = this.program.reports.find(({ span }) => span);
    if (report) this.editor.select(report.span);
  }

  /** Changes the whole text by a function. */
  rewrite(change) {
    this.editor.text = change(this.editor.text);
  }

  choose(key) {
    const view = this.views.find((it) => it.key === key) ?? this.views[0];
    if (view !== this.view) {
      this.light([]);
      this.lightThreads([]);
    }
    this.view = view;
    this.tabs.choose(view);
    this.remember();
  }

  async openView(key) {
    this.choose(key);
    await this.view.open();
  }

  /** Puts another text in the place of what is there, which isn't lost: it can be undone, and one's own is kept. */
  async openText(text, view) {
    this.keepOwn();
    this.views.forEach((it) => it.anew());
    this.opened = text;
    this.editor.text = text;
    this.nameProgram();
    if (view) this.choose(view);
    await this.refresh();
  }

  /** Says which example the text is, or that it is none. */
  nameProgram() {
    const { text } = this.editor;
    byId("examples").value = Object.keys(this.examples).find((name) => this.examples[name] === text) ?? "";
  }

  async openExample(name, view) {
    await this.openText(this.examples[name], view);
  }

  /** Keeps the text if it is no example. */
  keepOwn() {
    const { text } = this.editor;
    const isExample = Object.values(this.examples).includes(text);
    if (!isExample && text.trim() && text !== this.opened) keep.own = text;
    byId("own").hidden = keep.own === null;
  }

  async replay(order, fuel) {
    await this.openView("schedule");
    await this.views.find((view) => view.key === "schedule").replay(order, fuel);
  }

  async replayText(text, order, fuel) {
    await this.openText(text, null);
    await this.replay(order, fuel);
  }

  /** Says that something is at work where it takes longer than a moment, with a way to stop it. */
  showWork() {
    clearTimeout(this.working);
    const isBusy = this.sectc.isBusy;
    if (!isBusy) this.tellWork(false);
    else this.working = setTimeout(() => this.tellWork(this.sectc.isBusy), LONG);
  }

  tellWork(isBusy) {
    byId("work").classList.toggle("busy", isBusy);
    byId("stop").setAttribute("aria-disabled", String(!isBusy));
    byId("panels").setAttribute("aria-busy", String(isBusy));
  }

  stop() {
    if (byId("stop").getAttribute("aria-disabled") === "true") return;
    this.sectc.drop("it was stopped");
    this.say("Stopped.");
  }

  /** Says something for a while, also to those who hear the page. */
  say(text) {
    const toast = byId("toast");
    toast.textContent = text;
    toast.classList.add("shown");
    clearTimeout(this.toast);
    this.toast = setTimeout(() => toast.classList.remove("shown"), 3500);
  }

  /** Copies a text, and says that it did. */
  async copy(text, what) {
    try {
      await navigator.clipboard.writeText(text);
      this.say(`Copied ${what}.`);
    } catch {
      this.offer(text, what);
    }
  }

  /** Shows a text to be copied by hand, where the browser doesn't let the page do it. */
  offer(text, what) {
    const field = element("input", { value: text, readonly: true, "aria-label": what });
    const box = byId("offer");
    update(box, element("p", {}, `This browser doesn't let the page copy. Here is ${what}:`), field,
      button("close", () => box.close()));
    box.showModal();
    box.querySelector("input").select();
  }

  /** All that a link holds. */
  get state() {
    const words = this.view.linked;
    return {
      text: this.editor.text,
      k: this.k,
      view: this.view.key,
      ...(words === undefined ? {} : { words }),
      ...(this.tour.step === null ? {} : { tour: this.tour.step }),
      ...(this.opened === this.editor.text ? {} : { opened: this.opened }),
    };
  }

  /** Keeps the address as what is shown, a little after the last deed. */
  remember() {
    clearTimeout(this.remembering);
    this.remembering = setTimeout(() => this.write(), REMEMBERED);
  }

  async write() {
    clearTimeout(this.remembering);
    const part = await written(this.state);
    this.part = part.length > LONGEST ? "" : part;
    history.replaceState(null, "", this.part ? `#${this.part}` : location.pathname + location.search);
    this.keepDraft();
  }

  /** Keeps what is shown for this tab, and for which address that is: a draft is newer than its address. */
  keepDraft() {
    keep.draft = { state: this.state, part: location.hash.slice(1) };
  }

  async share() {
    await this.write();
    if (this.part) await this.copy(location.href, "the link");
    else this.say("This text is too long for a link.");
  }

  /** Shows what a link or a draft holds. */
  async restore({ text, k, view, words, tour, opened }) {
    this.opened = opened ?? text;
    byId("fields").value = k ?? "2";
    this.editor.text = text;
    this.tour.show(tour ?? null);
    this.choose(view);
    if (words !== undefined) this.view.linked = words;
    this.nameProgram();
    await this.refresh();
  }

  /** Shows what the address asks for. What is broken is said, and the text stays. */
  async follow() {
    const part = location.hash.slice(1);
    if (part === (this.part ?? "")) return;
    try {
      const state = await read(part);
      this.part = part;
      if (state) await this.restore(state);
      else this.remember();
    } catch (failure) {
      if (!(failure instanceof BadLink)) throw failure;
      this.say("This link is broken: a part of it is missing. Your text is as it was.");
    }
  }

  /** Shows the address's program, the draft of this tab, or the beginning of the tour. */
  async begin() {
    const part = location.hash.slice(1);
    const { draft } = keep;
    const isNewer = draft?.part === part;
    const linked = isNewer ? draft.state : await read(part).catch(() => "broken");
    byId("own").hidden = keep.own === null;
    if (linked && linked !== "broken") await this.restore(linked);
    else await this.tour.go(0);
    if (linked === "broken") this.say("This link is broken: a part of it is missing.");
  }
}

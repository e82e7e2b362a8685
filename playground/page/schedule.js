// A run turn by turn: what each thread does, knows and holds, who waits for whom, and the store.
import { ENDS, counted } from "./answers.js";
import { term } from "./legend.js";
import { keySign, mode, threadColour, threadSign } from "./signs.js";
import { storePicture } from "./store.js";
import { View } from "./tab.js";
import { timeline } from "./timeline.js";
import { Turns } from "./turns.js";
import { button, element, table } from "./view.js";

export class Schedule extends View {
  constructor(page) {
    super(page, "Schedule", "schedule");
    this.turns = new Turns(page);
    this.wanted = null;
    this.before = Promise.resolve();
    this.panel.onkeydown = (event) => this.press(event);
  }

  get linked() {
    return this.turns.list.length ? { turns: this.turns.list, at: this.turns.at, fuel: this.turns.fuel } : undefined;
  }

  set linked(words) {
    this.wanted = words;
  }

  /** Begins anew, for another program. */
  forget() {
    this.turns.clear();
    this.said = null;
  }

  async show() {
    if (this.wanted) {
      const { turns, at, fuel } = this.wanted;
      this.wanted = null;
      this.turns.fuel = fuel ?? null;
      await this.turns.make(turns, at).catch(() => this.turns.clear());
    }
    if (!this.turns.moments.length) await this.turns.make([]);
    await this.redraw();
  }

  /** Does something with the turns once what was asked before is done, and shows what has come of it. */
  deed(doIt) {
    const { version } = this.page;
    this.page.deeds++;
    this.before = this.before.then(async () => {
      this.page.deeds--;
      if (version !== this.page.version) return;
      await this.work(async () => {
        this.said = await doIt(this.turns) ?? null;
        await this.redraw();
        this.page.remember();
      });
    });
    return this.before;
  }

  look(at) {
    this.turns.at = Math.min(Math.max(at, 0), this.turns.list.length);
    this.said = null;
    this.page.remember();
    return this.redraw();
  }

  turn(thread) {
    return this.deed((turns) => turns.turn(thread));
  }

  random() {
    const threads = this.turns.running();
    return threads.length ? this.turn(threads[Math.floor(Math.random() * threads.length)]) : undefined;
  }

  untilWaits(thread) {
    return this.deed(
      (turns) => turns.until(({ threads }) => threads[thread].waits !== null, (moment) => turns.running(moment)));
  }

  untilStop() {
    const stops = new Set(this.page.editor.stops);
    const lineOf = ({ span }) => span?.start.line;
    const hasCome = (now, before) => now.threads.some((thread, number) => stops.has(lineOf(thread))
        && (thread.text !== before.threads[number].text || lineOf(before.threads[number]) !== lineOf(thread)));
    return this.deed((turns) => (stops.size ? turns.until(hasCome, (moment) => turns.running(moment))
      : "Click beside a line's number to have a run stop there."));
  }

  replay(order, fuel) {
    return this.deed((turns) => turns.replay(order, fuel));
  }

  /** Turns that are given as words, by the threads' numbers or names. */
  type(text) {
    const { threads } = this.program;
    const list = text.replace(/^.*schedule(\s+--(k|fuel)\s+\d+)*/, "").split(/[\s,]+/).filter(Boolean)
      .map((word) => (/^\d+$/.test(word) ? Number(word) : threads.findIndex(({ name }) => name === word)));
    const wrong = list.some((thread) => !threads[thread]);
    return this.deed((turns) => (wrong ? "Turns are the names or numbers of threads." : turns.make(list)));
  }

  press(event) {
    if (event.target.matches("input, select, textarea") || event.ctrlKey || event.metaKey || event.altKey) return;
    const step = { ArrowLeft: -1, ArrowRight: 1, Home: -Infinity, End: Infinity }[event.key];
    const thread = /^[1-9]$/.test(event.key) ? Number(event.key) - 1 : -1;
    if (step) this.look(this.turns.at + step);
    else if (this.turns.moment?.threads[thread]?.standing === "running") this.turn(thread);
    else return;
    event.preventDefault();
  }

  async redraw() {
    const { moment, at } = this.turns;
    this.light(moment);
    const picture = await storePicture(moment.objects, this.panel.clientWidth || 640);
    if (moment !== this.turns.moment || at !== this.turns.at) return;
    this.draw(this.runControls(), this.timeControls(), this.told(moment),
      element("div", { class: "threads" }, moment.threads.map((thread, number) => this.card(thread, number))),
      element("h2", {}, "The store"), picture, this.output(moment),
      element("h2", {}, "Turns so far"), timeline(this.turns, this.program, (turn) => this.look(turn)),
      this.keys(moment), this.command());
    this.showNow();
  }

  /** Brings the turn that is looked at into sight, among the turns alone. */
  showNow() {
    const now = this.panel.querySelector(".timeline .now");
    const list = now?.closest(".timeline");
    if (list
      && (now.offsetTop < list.scrollTop + 32
        || now.offsetTop + now.offsetHeight > list.scrollTop + list.clientHeight)) {
      list.scrollTop = now.offsetTop - list.clientHeight / 2;
    }
  }

  /** Lights up where each thread is. */
  light({ threads, turn }) {
    const pieces =
      threads.flatMap(({ span, call, name, text }, number) => [span, call].filter(Boolean).map((piece, place) => ({
        span: piece,
        title: `${name} is here: ${text}`,
        name: `at ${threadColour(number)}${number === turn ? " turn" : ""}${place ? " call" : ""}`,
      })));
    this.page.lightThreads(pieces, threads[turn]?.span);
  }

  runControls() {
    const { moment } = this.turns;
    const names = moment.threads.map(({ name }) => name);
    const ofThread = (name, number) => {
      const hasEnded = moment.threads[number].standing !== "running";
      const inert = { "aria-disabled": String(hasEnded), title: hasEnded ? `${name} has ended` : "" };
      return element("span", { class: `pair ${threadColour(number)}`, "data-key": `thread-${number}` },
        button(`turn of ${name}`, () => hasEnded || this.turn(number), { class: "turn", ...inert }),
        button("section", () => hasEnded || this.deed((turns) => turns.section(number)), {
          ...inert,
          "aria-label": `${name} up to the end of its section`,
          title: `${name} up to the end of its section`
        }));
    };
    return element("div", { class: "controls", "data-key": "run" }, names.map(ofThread),
      element("span", { class: "break" }), button("random turn", () => this.random(), { class: "minor" }),
      button("until all have ended", () => this.deed((turns) => turns.toTheEnd()), { class: "minor" }),
      element("span", { class: "pair minor" },
        button("until", () => this.untilWaits(Number(this.panel.querySelector("#waiter").value))),
        element("select", { id: "waiter", "aria-label": "thread" },
          names.map((name, number) => element("option", { value: number }, `${name} waits`)))),
      button("until a marked line", () => this.untilStop(),
        { class: "minor", title: "a click beside a line's number marks it" }));
  }

  timeControls() {
    const { at, list } = this.turns;
    const step = (label, to, title) => button(label, () => this.look(to),
      { title, "aria-label": title, "aria-disabled": String(to === at || to < 0 || to > list.length) });
    return element("div", { class: "time", "data-key": "time" }, step("|◂", 0, "to the start"),
      step("◂", at - 1, "one turn back"), element("input", {
        type: "range",
        id: "slider",
        min: 0,
        max: list.length,
        value: at,
        "aria-label": "turn",
        "aria-valuetext": `behind turn ${at} of ${list.length}`,
        oninput: (event) => this.look(Number(event.target.value))
      }),
      step("▸", at + 1, "one turn on"), step("▸|", list.length, "to the last turn"),
      element("span", { class: "count" }, `${at} / ${counted(list.length, "turn")}`), button("from the start", () => {
        this.forget();
        return this.deed((turns) => turns.make([]));
      }));
  }

  told(moment) {
    const said = moment.turn === null
      ? "No turn yet: give a thread a turn, or take one of the keys 1, 2, ..; ← and → go back and forth."
      : [
          threadSign(moment.threads[moment.turn].name, moment.turn), " ", moment.cells[moment.turn],
          ...moment.done.map(({ text }) => [": ", element("code", {}, text)])
        ];
    return element("p", { class: "told", id: "told", "aria-live": "polite" }, said,
      this.said ? element("strong", { class: "trouble" }, ` ${this.said}`) : null);
  }

  card(thread, number) {
    const { name, standing, text, waits, held, locals, isInside } = thread;
    const isTurn = this.turns.moment.turn === number;
    const running = waits ? "waits" : isInside ? "in its section" : "between sections";
    const kinds = ["card", "thread-card", threadColour(number), isTurn ? "turn" : "", waits ? "waits" : ""];
    const next = text.replace(/^section/, isInside ? "begin section" : "enter section");
    return element("article", { class: kinds.join(" "), "data-key": `card-${number}` },
      element("header", {}, threadSign(name, number),
        element("span", { class: "state" }, standing === "running" ? running : ENDS[standing])),
      text ? element("p", { class: "next" }, "next: ", element("code", {}, next)) : null,
      waits ? this.wait(waits) : null, locals.length ? this.locals(locals) : null,
      held.size ? this.held([...held]) : null);
  }

  held(held) {
    return element("p", { class: "held" }, "holds ", held.map(([key, how]) => keySign(key, how)));
  }

  locals(locals) {
    return element("dl", { class: "locals" }, locals.map(({ name, value, hasChanged }) =>
      element("div", { class: hasChanged ? "changed" : "" }, element("dt", {}, name),
        element("dd", {}, value === null ? "null" : String(value)))));
  }

  wait({ key, mode: wanted, holders, behind }) {
    const sign = (name) => threadSign(name, this.program.threads.findIndex((thread) => thread.name === name));
    return element("p", { class: "wait" }, "waits for ", keySign(key, wanted),
      holders.map(({ name, mode: held }) => [sign(name), " holds ", mode(held)]),
      behind.map((name) => ["behind ", sign(name)]));
  }

  output({ output }) {
    return output.length ? element("p", { class: "output" }, "printed: ", element("code", {}, output.join(" "))) : null;
  }

  keys({ threads }) {
    const keys = [...new Set(threads.flatMap(({ held, waits }) => [...held.keys(), ...(waits ? [waits.key] : [])]))];
    if (!keys.length) return element("p", { class: "quiet", "data-key": "keys" }, "No key is held.");
    const cell = ({ held, waits }, key, number) => {
      const colour = threadColour(number);
      if (waits?.key === key)
        return element("td", { class: `waits ${colour}` }, "waits, wants ", term(waits.mode),
          waits.behind.map((name) => ` behind ${name}`));
      return element("td", { class: held.has(key) ? `held ${colour}` : "" }, held.has(key) ? term(held.get(key)) : "");
    };
    const rows = keys.map(
      (key) => [element("th", { scope: "row" }, key), ...threads.map((thread, number) => cell(thread, key, number))]);
    const heads = ["key", ...threads.map(({ name }, number) => threadSign(name, number))];
    return element("div", { class: "scroll", "data-key": "keys", tabindex: 0, role: "group", "aria-label": "Keys" },
      table("Who holds which key, and in which mode", [heads, ...rows]));
  }

  command() {
    const { command } = this.turns;
    return element("div", { class: "command", "data-key": "command" },
      element("label",
        { for: "turns"
        },
        "These turns as a command"),
      element("input", {
        id: "turns",
        value: command,
        spellcheck: "false",
        autocomplete: "off",
        onchange: (event) => this.type(event.target.value),
        onkeydown: (event) => {
          if (event.key === "Enter") this.type(event.target.value);
        }
      }),
      button("copy", () => this.page.copy(command, "the command")));
  }
}

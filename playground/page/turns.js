// Making turns: a run grows by turns of its threads, and is known moment by moment.
import { counted } from "./answers.js";
import { momentsOf } from "./moments.js";
import { Refused } from "./sectc.js";

/** More turns than this aren't made at once. */
export const MOST = 4000;
const FIRST = 24;
const LARGEST = 1600;

export class Turns {
  /** `page` is asked for the schedule of turns. */
  constructor(page) {
    this.page = page;
    this.clear();
  }

  clear() {
    this.list = [];
    this.moments = [];
    this.at = 0;
    this.fuel = null;
  }

  /** The words of the command that makes the first so many turns. */
  words(count = this.at) {
    return [
      "schedule", "--k", String(this.page.k), ...(this.fuel ? ["--fuel", String(this.fuel)] : []),
      ...this.list.slice(0, count).map(String)
    ];
  }

  /** The command as one would type it. */
  get command() {
    return ["sectc", ...this.words()].join(" ");
  }

  /** The moment that is looked at. */
  get moment() {
    return this.moments[this.at];
  }

  get last() {
    return this.moments.at(-1);
  }

  /** The threads that haven't ended at a moment. */
  running({ threads } = this.moment ?? { threads: [] }) {
    return threads.map((_, thread) => thread).filter((thread) => threads[thread].standing === "running");
  }

  /** Makes these turns from the start, and looks at the last of them or at one before. */
  async make(list, at = list.length) {
    const { start, document, chart } = await this.ask(list);
    this.list = list;
    this.moments = momentsOf(this.page.program, start, document, chart, list);
    this.at = Math.min(at, list.length);
    this.answer = document;
  }

  async ask(list) {
    const words = [...this.words(0), ...list.map(String)];
    const [start, { document, status, text }, chart] = await Promise.all([
      this.page.askDocument(this.words(0)), this.page.askDocument(words), this.page.ask([...words, "--chart"])]);
    if (status) throw new Refused(text.trim());
    return { start: start.document, document, chart: chart.text };
  }

  /** Makes one turn more of a thread. Turns behind the moment that is looked at are dropped. */
  async turn(thread) {
    await this.make([...this.list.slice(0, this.at), thread]);
  }

  /**
   * Makes turns until a moment is as wanted. `choose` tells from a moment whose turn is next, over and over. The answer
   * says how it ended where that isn't as wanted.
   */
  async until(isWanted, choose) {
    const start = this.at;
    let list = this.list.slice(0, start);
    for (let more = FIRST; list.length < start + MOST; more = Math.min(more * 2, LARGEST)) {
      const threads = choose(this.moments[Math.min(list.length, this.moments.length - 1)]);
      if (!threads.length) return "All threads have ended.";
      const known = list.length;
      await this.make([...list, ...Array.from({ length: more }, (_, number) => threads[number % threads.length])]);
      this.dropIdle(known);
      const found =
        this.moments.findIndex((moment, number) => number > start && isWanted(moment, this.moments[number - 1]));
      if (found >= 0) return this.keep(found);
      list = this.list;
      if (list.length === known) return "Nothing more happens.";
    }
    this.at = this.list.length;
    return `Not within ${counted(MOST, "turn")}: perhaps a thread goes round in a loop for ever.`;
  }

  keep(count) {
    this.list = this.list.slice(0, count);
    this.moments = this.moments.slice(0, count + 1);
    this.at = count;
    return null;
  }

  /** Leaves out turns that do nothing: of a thread that has ended, or that waits already. */
  dropIdle(from) {
    const isIdle = (turn) => {
      if (turn < from || this.moments[turn + 1].events.length) return false;
      const before = this.moments[turn].threads[this.list[turn]];
      return before.standing !== "running" || before.waits !== null;
    };
    const kept = this.list.map((_, turn) => turn).filter((turn) => !isIdle(turn));
    this.moments = [this.moments[0], ...kept.map((turn) => this.moments[turn + 1])];
    this.list = kept.map((turn) => this.list[turn]);
    this.at = this.list.length;
  }

  /** Goes on with one thread until it has left its next section. */
  async section(thread) {
    const hasLeft = ({ events }) => events.some((event) => event.thread === thread && event.deed === "leave");
    const isStuck = ({ threads }) => threads[thread].waits !== null || threads[thread].standing !== "running";
    return this.until((moment) => hasLeft(moment) || isStuck(moment), () => [thread]);
  }

  /** Goes on with all threads, turn by turn, until all have ended. */
  async toTheEnd() {
    return this.until((moment) => this.running(moment).length === 0, (moment) => this.running(moment));
  }

  /** Makes the turns of an order of whole sections, with so much fuel for each thread, and what is left behind them. */
  async replay(order, fuel) {
    this.clear();
    this.fuel = fuel;
    await this.make([]);
    for (const thread of order) {
      const trouble = await this.section(thread);
      if (trouble) return trouble;
    }
    return this.running().length ? this.toTheEnd() : null;
  }
}

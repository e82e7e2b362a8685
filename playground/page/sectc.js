// The program as the page asks it: words and a text, and then its status and what it printed.
//
// A lane is a worker with its own queue. What a key asks goes one way and what a view asks another, so that a long
// answer keeps no short one waiting.

/** A worker that is younger than this, in milliseconds, is left to answer: a new one would take as long. */
const YOUNG = 300;

/** No answer comes: the question was dropped or stopped, or the program didn't come to an end. */
export class Stopped extends Error {}

/** The program refuses to answer; the message is its own. */
export class Refused extends Error {}

class Lane {
  constructor(module, changed) {
    this.module = module;
    this.changed = changed;
    this.queue = [];
    this.started = 0;
    this.numbers = 0;
    this.start();
  }

  /** Begins a worker, which gets the module as soon as that is compiled. */
  start() {
    this.started++;
    const worker = new Worker("worker.js", { type: "module" });
    worker.onmessage = ({ data }) => this.answered(data);
    worker.onerror = (event) => this.answered({ number: this.running?.number, failure: event.message });
    this.module.then((module) => worker.postMessage({ module }), () => worker.terminate());
    this.worker = worker;
  }

  ask(words, text) {
    return new Promise((resolve, reject) => {
      this.queue.push({ number: this.numbers++, words, text, resolve, reject });
      this.next();
    });
  }

  next() {
    if (this.running || !this.queue.length) return this.changed();
    this.running = this.queue.shift();
    this.begun = performance.now();
    const { number, words, text } = this.running;
    this.worker.postMessage({ number, words, text });
    return this.changed();
  }

  answered({ number, status, text, failure }) {
    if (this.running?.number !== number) return;
    const { resolve, reject } = this.running;
    clearTimeout(this.timer);
    this.running = null;
    if (failure) reject(new Stopped(failure));
    else resolve({ status, text });
    this.next();
  }

  /** Drops what waits and what runs. A worker is ended where it doesn't answer soon. */
  drop(why) {
    for (const { reject } of this.queue.splice(0)) reject(new Stopped(why));
    if (!this.running) return;
    this.running.reject(new Stopped(why));
    clearTimeout(this.timer);
    this.timer = setTimeout(() => this.end(), Math.max(YOUNG - (performance.now() - this.begun), 0));
  }

  end() {
    this.worker.terminate();
    this.running = null;
    this.start();
    this.next();
  }

  /** For how many milliseconds a question has been running, 0 where none is. */
  get age() {
    return this.running ? performance.now() - this.begun : 0;
  }
}

export class Sectc {
  /** `module` is a promise of the compiled module. Questions are asked once it is there. */
  constructor(module) {
    const changed = () => this.changed?.();
    this.lanes = { key: new Lane(module, changed), view: new Lane(module, changed) };
  }

  /** Asks the program. The promise fails with `Stopped` where no answer comes. */
  ask(words, text, lane = "view") {
    return this.lanes[lane].ask(words, text);
  }

  /** Drops all questions. */
  drop(why) {
    Object.values(this.lanes).forEach((lane) => lane.drop(why));
  }

  /** Whether an answer is waited for. */
  get isBusy() {
    return Object.values(this.lanes).some(({ running, queue }) => running || queue.length > 0);
  }

  /** How many workers have been started. */
  get started() {
    return Object.values(this.lanes).reduce((sum, { started }) => sum + started, 0);
  }
}

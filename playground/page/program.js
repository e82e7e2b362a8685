// What is known of a text: the program's document of it, what is told of it, and where in the text things stand.
import { documentOf, documentsOf } from "./answers.js";

const NOTHING = { sections: [], threads: [], sites: [], procedures: [], classes: [] };

export class Program {
  /** What `inspect` and `lint --format json` have answered of a text, with k fields in a path. */
  constructor({ text, k, version }, inspected, linted) {
    Object.assign(this, { text, k, version });
    this.isRefused = inspected.status !== 0;
    this.document = this.isRefused ? NOTHING : documentOf(inspected.text);
    this.reports = linted.text.startsWith("{") ? documentsOf(linted.text)
      : linted.text.trim() ? [{ severity: "error", message: linted.text.trim(), labels: [], notes: [] }] : [];
  }

  get sections() {
    return this.document.sections;
  }

  get threads() {
    return this.document.threads;
  }

  threadName(thread) {
    return this.threads[thread]?.name ?? `thread ${thread}`;
  }

  /** How often a section's thread has one before it. */
  placeInThread(number) {
    const { thread } = this.sections[number];
    return this.sections.slice(0, number).filter((section) => section.thread === thread).length;
  }

  /** A section as a reader knows it, by its thread and its line. */
  titleOf(number) {
    const { thread, place } = this.sections[number];
    return `section ${number} of ${this.threadName(thread)}, line ${place.start.line}`;
  }

  /** The pieces of the text that nodes of a section come from; of a procedure's statement, its call as well. */
  spansOf(section, numbers) {
    const places = numbers.map((number) => this.sections[section].nodes[number].place);
    return places.flatMap(({ call, statement }) => [statement, call]).filter(Boolean);
  }

  /** How two sections of two threads meet, from the answer of `conflicts`. */
  static pairOf(pairs, one, other) {
    const [first, second] = [Math.min(one, other), Math.max(one, other)];
    return pairs.find((pair) => pair.first === first && pair.second === second);
  }
}

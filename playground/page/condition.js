// Conditions on an outcome, as `a.bal == 1 && thread p == done`, and whether they hold.

const TOKEN = /\s*(?:([A-Za-z_]\w*)|(\d+)|(\|\||&&|==|!=|<=|>=|[-+*!<>()[\].,#])|(\S))/y;
const COMPARED = {
  "==": (one, other) => one === other, "!=": (one, other) => one !== other, "<": (one, other) => one < other,
  "<=": (one, other) => one <= other, ">": (one, other) => one > other, ">=": (one, other) => one >= other,
};
const STANDINGS = ["done", "null", "overflow", "fuel", "running"];

/** No condition can go on so; `column` counts from 1. */
export class BadCondition extends Error {
  constructor(message, column) {
    super(`${message}, at column ${column}`);
    this.column = column;
  }
}

/** What has no value: a path through null, or a number that wasn't printed. No comparison with it holds. */
const NOTHING = Symbol("nothing");

function tokensOf(text) {
  const found = [];
  TOKEN.lastIndex = 0;
  while (TOKEN.lastIndex < text.trimEnd().length) {
    const match = TOKEN.exec(text);
    const word = match[1] ?? match[2] ?? match[3];
    const column = TOKEN.lastIndex - (word ?? match[4]).length + 1;
    if (word === undefined) throw new BadCondition(`\`${match[4]}\` is no sign`, column);
    found.push({ word, column });
  }
  return found;
}

function numeric(value) {
  return typeof value === "number" || (typeof value === "string" && /^-?\d+$/.test(value)) ? BigInt(value) : value;
}

class Reader {
  constructor(text, { globals, threads }) {
    Object.assign(this, { globals, threads, tokens: tokensOf(text), at: 0, end: text.length + 1 });
  }

  get next() {
    return this.tokens[this.at]?.word;
  }

  fault(message) {
    return new BadCondition(message, this.tokens[this.at]?.column ?? this.end);
  }

  take() {
    return this.tokens[this.at++].word;
  }

  passes(word) {
    if (this.next !== word) return false;
    this.at++;
    return true;
  }

  expect(word) {
    if (!this.passes(word)) throw this.fault(`\`${word}\` is wanted`);
  }

  whole() {
    const found = this.either();
    if (this.next !== undefined) throw this.fault(`\`${this.next}\` can't stand here`);
    return found;
  }

  either() {
    const parts = [this.both()];
    while (this.passes("||")) parts.push(this.both());
    return (outcome) => parts.some((part) => part(outcome));
  }

  both() {
    const parts = [this.one()];
    while (this.passes("&&")) parts.push(this.one());
    return (outcome) => parts.every((part) => part(outcome));
  }

  one() {
    if (this.passes("!")) {
      const part = this.one();
      return (outcome) => !part(outcome);
    }
    if (this.passes("(")) {
      const part = this.either();
      this.expect(")");
      return part;
    }
    if (this.passes("thread")) return this.ending();
    if (this.next === "print" && this.tokens[this.at + 1]?.word !== "[") return this.printed();
    return this.comparison();
  }

  equality() {
    if (this.passes("==")) return true;
    this.expect("!=");
    return false;
  }

  ending() {
    const name = this.next;
    const thread = /^\d/.test(name ?? "") ? Number(name) : this.threads.indexOf(name);
    if (!(thread in this.threads)) throw this.fault(`there is no thread \`${name ?? ""}\``);
    this.take();
    const isEqual = this.equality();
    if (!STANDINGS.includes(this.next)) throw this.fault(`one of ${STANDINGS.join(", ")} is wanted`);
    const standing = this.take();
    return ({ threads }) => (threads[thread].state === standing) === isEqual;
  }

  printed() {
    this.take();
    const isEqual = this.equality();
    this.expect("[");
    const wanted = [];
    while (this.next !== "]") {
      wanted.push(this.number());
      if (!this.passes(",")) break;
    }
    this.expect("]");
    return ({ output }) =>
             (output.length === wanted.length && output.every((value, place) => numeric(value) === wanted[place]))
      === isEqual;
  }

  number() {
    const sign = this.passes("-") ? -1n : 1n;
    if (!/^\d/.test(this.next ?? "")) throw this.fault("a number is wanted");
    return sign * BigInt(this.take());
  }

  comparison() {
    const first = this.sum();
    const compare = COMPARED[this.next];
    if (!compare) throw this.fault("a comparison is wanted, as `a.bal == 1`");
    this.take();
    const second = this.sum();
    return (outcome) => {
      const [one, other] = [first(outcome), second(outcome)];
      return one !== NOTHING && other !== NOTHING && compare(one, other);
    };
  }

  sum() {
    let found = this.term();
    while (this.next === "+" || this.next === "-") {
      const [one, sign, other] = [found, this.take() === "+" ? 1n : -1n, this.term()];
      found = (outcome) => computed(one(outcome), other(outcome), (first, second) => first + sign * second);
    }
    return found;
  }

  term() {
    let found = this.value();
    while (this.passes("*")) {
      const [one, other] = [found, this.value()];
      found = (outcome) => computed(one(outcome), other(outcome), (first, second) => first * second);
    }
    return found;
  }

  value() {
    if (this.next === "-" || /^\d/.test(this.next ?? "")) {
      const number = this.number();
      return () => number;
    }
    if (this.passes("null")) return () => null;
    if (this.passes("#")) return this.count();
    if (this.passes("print")) {
      this.expect("[");
      const place = Number(this.number());
      this.expect("]");
      return ({ output }) => (place in output ? numeric(output[place]) : NOTHING);
    }
    return this.path();
  }

  count() {
    if (this.passes("print")) return ({ output }) => BigInt(output.length);
    const number = this.number();
    return ({ output }) => BigInt(output.filter((value) => numeric(value) === number).length);
  }

  path() {
    if (!this.globals.includes(this.next))
      throw this.fault(this.next ? `there is no global \`${this.next}\`` : "the condition ends too early");
    const base = this.take();
    const fields = [];
    while (this.passes(".")) {
      if (!/^[A-Za-z_]/.test(this.next ?? "")) throw this.fault("a field is wanted");
      fields.push(this.take());
    }
    return ({ objects }) => fields.reduce((value, field) => followed(objects, value, field), base);
  }
}

function computed(one, other, compute) {
  return typeof one === "bigint" && typeof other === "bigint" ? compute(one, other) : NOTHING;
}

function followed(objects, name, field) {
  const found = objects.find((object) => object.name === name)?.fields.find((it) => it.name === field);
  return found ? numeric(found.value) : NOTHING;
}

/** The test of outcomes that a condition is. `names` are those of the globals and threads. */
export function conditionOf(text, names) {
  return new Reader(text, names).whole();
}

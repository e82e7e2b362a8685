// The parts of a text that is accepted: its declarations and its statements, as a tree.
//
// Only texts that the program has accepted are read, so nothing is judged here.

const TOKEN = /\/\/[^\n]*|[A-Za-z_]\w*|\d+|==|!=|<=|\S/g;

function tokensOf(text) {
  return Array.from(text.matchAll(TOKEN), ([word]) => word).filter((word) => !word.startsWith("//"));
}

class Reader {
  constructor(text) {
    this.tokens = tokensOf(text);
    this.at = 0;
  }

  get next() {
    return this.tokens[this.at];
  }

  take() {
    return this.tokens[this.at++];
  }

  passes(word) {
    if (this.next !== word) return false;
    this.at++;
    return true;
  }

  /** The tokens up to a sign, which is passed. */
  upTo(sign) {
    const found = [];
    while (this.next !== sign && this.next !== undefined) found.push(this.take());
    this.take();
    return found;
  }

  /** Declarations `type name;`, as many as there are. */
  variables() {
    const found = [];
    while (/^\w/.test(this.next ?? "") && /^[A-Za-z_]/.test(this.tokens[this.at + 1] ?? "")
      && this.tokens[this.at + 2] === ";" && this.next !== "print") {
      found.push({ type: this.take(), name: this.take() });
      this.take();
    }
    return found;
  }

  record() {
    const [name, , guard] = this.upTo("{");
    const fields = this.variables();
    this.take();
    return { name, guard, fields };
  }

  procedure() {
    const name = this.take();
    this.take();
    const words = this.upTo(")").filter((word) => word !== ",");
    const parameters = words.flatMap((type, place) => (place % 2 ? [] : [{ type, name: words[place + 1] }]));
    return { name, parameters, ...this.body() };
  }

  body() {
    this.take();
    const locals = this.variables();
    return { locals, statements: this.statements() };
  }

  /** The statements up to the brace that closes them. */
  statements() {
    const found = [];
    while (this.next !== "}" && this.next !== undefined) found.push(this.statement());
    this.take();
    return found;
  }

  block() {
    this.take();
    return this.statements();
  }

  statement() {
    if (this.passes("atomic")) return { kind: "atomic", isAll: this.passes("all"), part: this.block() };
    const word = this.next;
    if (word === "if" || word === "while") {
      this.at += 2;
      const test = this.upTo(")");
      const part = this.block();
      return { kind: word, test, part, other: word === "if" && this.passes("else") ? this.block() : [] };
    }
    if (this.passes("call")) {
      const name = this.take();
      this.take();
      const given = this.upTo(")").filter((it) => it !== ",");
      this.take();
      return { kind: "call", name, given };
    }
    return { kind: "simple", words: this.upTo(";") };
  }
}

/** The records, globals, procedures and threads of a text. */
export function treeOf(text) {
  const reader = new Reader(text);
  const tree = { records: [], globals: [], procedures: [], threads: [] };
  while (reader.next !== undefined) {
    const word = reader.take();
    if (word === "record") tree.records.push(reader.record());
    else if (word === "global") tree.globals.push({ type: reader.take(), name: reader.upTo(";")[0] });
    else if (word === "proc") tree.procedures.push(reader.procedure());
    else tree.threads.push({ name: reader.take(), ...reader.body() });
  }
  return tree;
}

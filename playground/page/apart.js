// The same program without its sections: each statement that touches what is shared stands by itself, so that other
// threads may come between any two.
import { treeOf } from "./source.js";

const INDENT = "  ";
const LONGEST = 32;

class Writer {
  constructor(tree) {
    this.tree = tree;
  }

  thread({ name, locals, statements }) {
    this.locals = [...locals];
    this.names = new Set([...locals, ...this.tree.globals].map((it) => it.name));
    this.calls = 0;
    const lines = statements.flatMap((statement) => this.lines(statement, (word) => word, false));
    const declared = this.locals.map((it) => `${it.type} ${it.name};`).join(" ");
    return [`thread ${name} {`, ...(declared ? [INDENT + declared] : []), ...lines.map((line) => INDENT + line), "}"];
  }

  lines(statement, rename, isInside) {
    if (statement.kind === "atomic") return statement.part.flatMap((it) => this.lines(it, rename, true));
    if (statement.kind === "call") return this.call(statement, rename);
    if (statement.kind === "simple") return [this.simple(statement.words, rename, isInside)];
    const block = (part) => part.flatMap((it) => this.lines(it, rename, isInside)).map((line) => INDENT + line);
    const head = `${statement.kind} (${statement.test.map(rename).join(" ")}) {`;
    const other = statement.other.length ? ["} else {", ...block(statement.other)] : [];
    return [head, ...block(statement.part), ...other, "}"];
  }

  simple(words, rename, isInside) {
    const isShared = words.includes(".") || words[2] === "new" || words[0] === "print";
    const text =
      words.map((word, place) => (words[place - 1] === "." || words[place - 1] === "new" ? word : rename(word)))
        .join(" ")
        .replaceAll(" . ", ".");
    return isInside && isShared ? `atomic { ${text}; }` : `${text};`;
  }

  /** A call's statements, with locals of its own. */
  call({ name, given }, rename) {
    const { parameters, locals, statements } = this.tree.procedures.find((it) => it.name === name);
    const number = this.calls++;
    const own = new Map([...parameters, ...locals].map((it) => [it.name, this.fresh(it, number)]));
    const inner = (word) => own.get(word) ?? word;
    const passed = parameters.map((it, place) => `${own.get(it.name)} = ${rename(given[place])};`);
    const begun = locals.map((it) => `${own.get(it.name)} = ${it.type === "int" ? "0" : "null"};`);
    return [...passed, ...begun, ...statements.flatMap((it) => this.lines(it, inner, true))];
  }

  fresh({ type, name }, number) {
    let found = `${name}_${number}`.slice(0, LONGEST);
    for (let more = 0; this.names.has(found); more++) found = `local_${number}_${more}`;
    this.names.add(found);
    this.locals.push({ type, name: found });
    return found;
  }
}

/** The text of a program that is accepted, with its sections taken apart. */
export function takenApart(text) {
  const tree = treeOf(text);
  const writer = new Writer(tree);
  const fields = (list) => list.map(({ type, name }) => `${type} ${name};`).join(" ");
  return [
    "// The same program without its sections: other threads may come between any two statements.",
    ...tree.records.map(
      ({ name, guard, fields: list }) => `record ${name} ${guard ? `protected_by ${guard} ` : ""}{ ${fields(list)} }`),
    ...tree.globals.map(({ type, name }) => `global ${type} ${name};`),
    ...tree.threads.flatMap((thread) => writer.thread(thread)),
    "",
  ].join("\n");
}

/** Whether a program has a section of more than one statement, so that it differs from what is taken apart. */
export function canBeTakenApart(text) {
  const count = (it) => ({ simple: 1, call: 2 })[it.kind] ?? counts(it.part) + counts(it.other ?? []);
  const counts = (part) => part.reduce((sum, it) => sum + count(it), 0);
  const isLong = ({ kind, part, other }) =>
    (kind === "atomic" ? counts(part) > 1 : part && (hasLong(part) || hasLong(other)));
  const hasLong = (part) => part.some(isLong);
  return treeOf(text).threads.some(({ statements }) => hasLong(statements));
}

// A run moment by moment, as `schedule` tells it: where each thread is, its locals, what it holds and waits for, and
// what each turn has changed. Who waits for whom, and what was printed, is read from the chart.
import { keyText } from "./answers.js";
import { cellsOf, printedIn, waitOf } from "./chart.js";
import { treeOf } from "./source.js";

/** The locals of a thread, those of its calls as well, with what they begin as. */
function firstLocals({ thread, calls, locals }, tree) {
  const ofCalls = calls.flatMap(({ call, procedure }) => {
    const { parameters, locals: own } = tree.procedures.find(({ name }) => name === procedure);
    return [...parameters, ...own].map(({ type, name }) => ({ type, name: `${name}#${call}` }));
  });
  const types = new Map([...tree.threads[thread].locals, ...ofCalls].map(({ type, name }) => [name, type]));
  return locals.map(({ name }) => ({ name, value: types.get(name) === "int" ? 0 : null, hasChanged: false }));
}

/** The statement at which a thread stands; one that has ended stands nowhere. */
function standing(state, { text, place }) {
  return state === "running" ? { text, span: place.statement, call: place.call } : { text: "", span: null, call: null };
}

function firstThread(thread, state, tree) {
  const place = { section: null, isInside: false, waits: null, held: new Map() };
  const { name, nodes } = thread;
  return { name, standing: state, ...place, ...standing(state, nodes[0]), locals: firstLocals(thread, tree) };
}

/** What a thread holds after an event of its own. */
function heldAfter(held, { deed, key, mode }) {
  if (deed === "take") return new Map([...held, [keyText(key), mode]]);
  return deed === "again" || deed === "leave" ? new Map() : held;
}

function sectionAfter(section, { deed, text }) {
  if (deed === "enter") return Number(text.split(" ")[1]);
  return deed === "again" || deed === "leave" ? null : section;
}

/** A thread after its turn, which has made this event. One that a fault has broken off stands at its statement yet. */
function afterTurn(thread, event) {
  const isBroken = event.deed === "act" && event.state !== "running";
  const state = isBroken ? "running" : event.state;
  const section = sectionAfter(thread.section, event);
  return {
    name: thread.name,
    standing: state,
    section,
    isInside: section !== null,
    waits: null,
    held: heldAfter(thread.held, event),
    ...standing(state, isBroken ? event : event.next),
    locals: event.locals.map(({ name, value }, place) => (
      { name, value, hasChanged: value !== thread.locals[place].value })),
  };
}

/** A thread after the turn of another one, which may have let it in. */
function afterOther(thread, events, number) {
  const taken = events.filter((event) => event.thread === number);
  return {
    ...thread,
    waits: taken.length ? null : thread.waits,
    held: taken.reduce(heldAfter, thread.held),
    locals: thread.locals.map((local) => ({ ...local, hasChanged: false })),
  };
}

/** Objects in the order of the program: those of the globals, and then by thread and number what was made. */
function inOrder(objects) {
  const place = ({ name }) => (name.includes("#") ? name.split("#").map(Number) : [-1, 0]);
  return objects.sort((one, other) => place(one)[0] - place(other)[0] || place(one)[1] - place(other)[1]);
}

/** The object that a turn has made, if it has run a `new`: its local refers to it. */
function madeBy({ text, locals, state }) {
  const found = state === "running" && text.match(/^(\S+) = new /);
  return found ? [locals.find(({ name }) => name === found[1]).value] : [];
}

/** The objects after a turn that has changed these fields and made these objects. */
function objectsAfter(objects, changes, fresh) {
  const changed = new Map(fresh.map((name) => [name, new Map()]));
  for (const { object, name, value } of changes)
    changed.set(object, new Map([...changed.get(object) ?? [], [name, value]]));
  const known = objects.map(({ name: object, fields }) => ({
    name: object,
    isNew: false,
    fields: fields.map(({ name, value }) => {
      const hasChanged = changed.get(object)?.has(name) ?? false;
      return { name, value: hasChanged ? changed.get(object).get(name) : value, hasChanged };
    }),
  }));
  known.forEach(({ name }) => changed.delete(name));
  const made = [...changed].map(([name, fields]) => ({
    name, isNew: true, fields: [...fields].map(([field, value]) => ({ name: field, value, hasChanged: true })),
  }));
  return inOrder([...known, ...made]);
}

function firstMoment(program, { objects, threads }) {
  const tree = treeOf(program.text);
  return {
    turn: null,
    events: [],
    done: [],
    cells: [],
    threads: program.threads.map((thread, number) => firstThread(thread, threads[number].state, tree)),
    objects: objectsAfter(objects, [], []),
    output: [],
  };
}

function momentAfter(before, turn, events, cells) {
  const [own] = events;
  const threads = before.threads.map((thread, number) => {
    const after = own && number === turn ? afterTurn(thread, own) : afterOther(thread, events, number);
    return { ...after, waits: waitOf(cells[number]) ?? after.waits };
  });
  return {
    turn,
    events,
    done: own && ["act", "local"].includes(own.deed) ? [own] : [],
    cells,
    threads,
    objects: own ? objectsAfter(before.objects, own.fields, madeBy(own)) : objectsAfter(before.objects, [], []),
    output: [...before.output, ...printedIn(cells[turn])],
  };
}

/**
 * The moments of a run: the one before the first turn, and one behind each turn. `start` is the document of `schedule`
 * without turns, `run` that of these turns, `chart` what they print as a chart, and `turns` the threads whose turns they
 * are.
 */
export function momentsOf(program, start, run, chart, turns) {
  const cells = cellsOf(chart, turns.length);
  const moments = [firstMoment(program, start.outcome)];
  run.turns.forEach((events, turn) => {
    moments.push(momentAfter(moments.at(-1), turns[turn], events, cells[turn]));
  });
  return moments;
}

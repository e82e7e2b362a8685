// The control-flow graph of a section: a box for statements that follow each other, with the locks that are needed from
// each of them on, and the chain of a lock drawn in.
import { lockText, setText } from "./answers.js";
import { laidOut, layoutReady, lineThrough, tip } from "./layout.js";
import { led } from "./lines.js";
import { lockClass, lockParts, setSigns } from "./signs.js";
import { View } from "./tab.js";
import { button, drawn, element } from "./view.js";

/** A box shows this many statements, and more at a click; a graph of more boxes is drawn at a click. */
const LONG = 60;
const MANY = 400;
const ZOOMS = [0.25, 0.35, 0.5, 0.7, 0.85, 1, 1.2, 1.5, 2, 3];

/** The nodes of a graph in boxes: each begins where control comes together or parts. */
function boxesOf(nodes) {
  const before = nodes.map(() => []);
  nodes.forEach(({ next }, node) => next.forEach((to) => before[to].push(node)));
  const goesOn = (node) => before[node].length === 1 && nodes[before[node][0]].next.length === 1
    && before[node][0] === node - 1 && nodes[node].next.length === 1;
  const boxes = [];
  const boxOf = [];
  nodes.forEach((_, node) => {
    if (node > 0 && goesOn(node)) boxes.at(-1).push(node);
    else boxes.push([node]);
    boxOf[node] = boxes.length - 1;
  });
  const edges = boxes.flatMap((box, from) => nodes[box.at(-1)].next.map((to, way, all) =>
    ({ from, to: boxOf[to], way, isTest: all.length > 1, isLoop: boxOf[to] <= from })));
  return { boxes, edges };
}

export class Graph extends View {
  constructor(page) {
    super(page, "Graph", "graph");
    this.section = 0;
    this.lock = null;
    this.zoom = 1;
    this.opened = new Set();
  }

  anew() {
    [this.section, this.lock, this.zoom] = [0, null, 1];
  }

  get linked() {
    return [this.section, this.lock];
  }

  set linked([section, lock]) {
    [this.section, this.lock] = [section, lock];
  }

  forget() {
    this.opened.clear();
    this.isWanted = false;
  }

  get known() {
    return this.program.sections[this.section];
  }

  async show() {
    const { sections } = this.program;
    if (!sections.length) {
      this.draw(element("p", { class: "empty" }, "There is no section in this program."));
      return;
    }
    this.section = Math.min(this.section, sections.length - 1);
    if (!this.known.chains[this.lock]) this.lock = null;
    await layoutReady();
    this.redraw();
  }

  redraw() {
    const { nodes } = this.known;
    const { boxes, edges } = boxesOf(nodes);
    if (boxes.length > MANY && !this.isWanted) {
      this.draw(this.controls(),
        element("div", { class: "empty", "data-key": "many" },
          element("p", {}, `This graph has ${boxes.length} boxes.`), button("draw it", () => {
            this.isWanted = true;
            this.redraw();
          })));
      return;
    }
    const steps = this.known.chains[this.lock]?.steps ?? [];
    const names = new Map();
    for (const { node, lock } of steps) names.set(node, [...names.get(node) ?? [], lockText(lock)]);
    const picture = element("div", { class: "graph", "data-key": "graph" }, drawn("svg", { "aria-hidden": "true" }),
      boxes.map((box, number) => this.box(box, number, names)));
    this.draw(this.controls(),
      element("div",
        { class: "canvas", tabindex: 0, role: "group", "aria-label": "Control-flow graph", "data-key": "canvas" },
        element("div", { class: "sheet" }, picture)), this.zooms());
    this.place(edges, steps, boxes);
  }

  controls() {
    const { sections } = this.program;
    const choose = (event) => {
      [this.section, this.lock] = [Number(event.target.value), null];
      this.page.light([]);
      this.page.remember();
      this.redraw();
    };
    const option = (_, number) =>
      element("option", { value: number, selected: number === this.section }, this.program.titleOf(number));
    const chip = ({ steps: [{ lock }] }, number) => button(lockParts(lock), () => this.choose(number),
      { class: lockClass(lock), "aria-pressed": String(this.lock === number) });
    return element("div", { class: "controls", "data-key": "controls" },
      element("label", {}, "Graph of ", element("select", { id: "section", onchange: choose }, sections.map(option))),
      element("div", { class: "chips", role: "group", "aria-label": "Draw the chain of a lock in" },
        this.known.chains.map(chip)));
  }

  zooms() {
    const zoom = (label, title, to) => button(label, () => this.zoomTo(to()), { title, "aria-label": title });
    const next = (step) =>
      ZOOMS[Math.min(Math.max(ZOOMS.findIndex((it) => it >= this.zoom) + step, 0), ZOOMS.length - 1)];
    return element("div", { class: "pair zoom", "data-key": "zoom" }, zoom("−", "smaller", () => next(-1)),
      zoom("1:1", "as large as text", () => 1), zoom("+", "larger", () => next(1)),
      zoom("fit", "the whole graph", () => this.fitting()));
  }

  choose(lock) {
    this.lock = this.lock === lock ? null : lock;
    const steps = this.known.chains[this.lock]?.steps ?? [];
    this.page.light(this.program.spansOf(this.section, steps.map(({ node }) => node)));
    this.page.remember();
    this.redraw();
  }

  box(box, number, names) {
    const { nodes } = this.known;
    const isShort = box.length <= LONG + 5 || this.opened.has(number);
    const shown = isShort ? box : box.slice(0, LONG);
    const isTest = nodes[box[0]].next.length > 1;
    const kind = isTest ? "test" : nodes[box[0]].next.length ? "" : "exit";
    return element("div", { class: `block ${kind}`, "data-key": `box-${box[0]}` },
      shown.map((node) => this.step(node, names.get(node))),
      isShort ? null : button(`${box.length - LONG} more statements`, () => {
        this.opened.add(number);
        this.redraw();
      }));
  }

  step(node, chain) {
    const { text, needs } = this.known.nodes[node];
    const light = () => this.page.light(this.program.spansOf(this.section, [node]));
    const called = chain && element("span", { class: "called" }, chain.join(" ← "));
    return button([element("span", { class: "text" }, text),
      called ?? element("span", { class: "needs" }, needs.length ? setSigns(needs) : null)], light, {
      class: `step${chain ? " lit" : ""}`, title: `from here on: ${setText(needs)}`, "data-node": node,
      ...this.page.pointing(() => this.program.spansOf(this.section, [node])),
    });
  }

  /** Marks the steps of the statement at a place of the text. */
  pointAt({ line, column }) {
    const isAt = ({ start, end }) => (start.line < line || (start.line === line && start.column <= column))
      && (line < end.line || (line === end.line && column <= end.column));
    this.panel.querySelectorAll(".step").forEach((step) => step.classList.toggle("here",
      this.program.spansOf(this.section, [step.dataset.node]).some(isAt)));
  }

  /** Puts the boxes where dagre wants them, and draws the lines between them. */
  place(edges, steps, boxes) {
    const picture = this.panel.querySelector(".graph");
    picture.style.zoom = "1";
    const nodes = [...picture.querySelectorAll(".block")];
    const sizes = nodes.map((node) => ({ width: node.offsetWidth, height: node.offsetHeight }));
    const { width, height, places, edges: lines } =
      laidOut(sizes, edges.map(({ from, to, isTest }) => ({ from, to, label: isTest ? 26 : 0 })),
        { direction: "TB", gap: 52, layers: 34 });
    nodes.forEach((node, number) => {
      node.style.left = `${places[number].x}px`;
      node.style.top = `${places[number].y}px`;
    });
    this.size = { width, height };
    picture.style.width = `${width}px`;
    picture.style.height = `${height}px`;
    const boxed = places.map((corner, number) => ({ ...corner, ...sizes[number] }));
    this.lines(picture.querySelector("svg"), edges, lines.map((line, number) => led(line, edges[number], boxed)),
      this.litEdges(steps, boxes));
    this.zoomTo(this.zoom);
  }

  litEdges(steps, boxes) {
    const boxOf = new Map(boxes.flatMap((box, number) => box.map((node) => [node, number])));
    return new Set(steps.slice(1).map(({ node }, place) => `${boxOf.get(steps[place].node)} ${boxOf.get(node)}`));
  }

  lines(svg, edges, lines, lit) {
    svg.setAttribute("width", this.size.width);
    svg.setAttribute("height", this.size.height);
    svg.replaceChildren(tip("graph-tip"), ...edges.flatMap(({ from, to, way, isTest, isLoop }, number) => {
      const { points, isLeft } = lines[number];
      const isLit = lit.has(`${from} ${to}`);
      const line = drawn("path", {
        class: `edge${isTest && way ? " otherwise" : ""}${isLoop ? " loop" : ""}${isLit ? " lit" : ""}`,
        d: lineThrough(points), "marker-end": "url(#graph-tip)",
      });
      return isTest ? [line, this.way(points[0], isLeft, way)] : [line];
    }));
  }

  /** Beside the beginning of a line: whether it goes on where the test holds. */
  way({ x, y }, isLeft, way) {
    const side = isLeft ? { x: x - 8, "text-anchor": "end" } : { x: x + 8 };
    return drawn("text", { class: "way", y: y + 15, ...side }, way ? "no" : "yes");
  }

  fitting() {
    const canvas = this.panel.querySelector(".canvas");
    return Math.min((canvas.clientWidth - 8) / this.size.width, (canvas.clientHeight - 8) / this.size.height, 1.5);
  }

  zoomTo(zoom) {
    this.zoom = zoom;
    this.panel.querySelector(".graph").style.zoom = String(zoom);
  }
}

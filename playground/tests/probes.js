// What tests measure in the page. The test server serves this file beside the page's own.

const canvas = document.createElement("canvas").getContext("2d", { willReadFrequently: true });

/** The red, green, blue and opacity of a colour, each 0 to 255. */
function parts(colour) {
  canvas.clearRect(0, 0, 1, 1);
  canvas.fillStyle = colour;
  canvas.fillRect(0, 0, 1, 1);
  return [...canvas.getImageData(0, 0, 1, 1).data];
}

/** How light a colour is, 0 to 1, as WCAG has it. */
export function lightness(colour) {
  const [red, green, blue] = parts(colour).map((value) => value / 255)
    .map((value) => (value <= 0.03928 ? value / 12.92 : ((value + 0.055) / 1.055) ** 2.4));
  return 0.2126 * red + 0.7152 * green + 0.0722 * blue;
}

export function contrast(one, other) {
  const [high, low] = [lightness(one), lightness(other)].sort((first, second) => second - first);
  return (high + 0.05) / (low + 0.05);
}

export function background(selector) {
  return getComputedStyle(document.querySelector(selector)).backgroundColor;
}

function behind(element) {
  for (let at = element; at; at = at.parentElement) {
    const colour = getComputedStyle(at).backgroundColor;
    if (parts(colour)[3] > 250) return colour;
  }
  return "Canvas";
}

function showsText(element) {
  const isSeen = element.getClientRects().length && getComputedStyle(element).visibility !== "hidden";
  const isMeant =
    !element.closest("svg, noscript, #toast, .CodeMirror-measure, [aria-disabled=true], :disabled, .later");
  const text =
    [...element.childNodes].filter(({ nodeType }) => nodeType === Node.TEXT_NODE).map(({ data }) => data).join("");
  return isSeen && isMeant && text.replace(/\u200b/g, "").trim() !== "";
}

/** Texts whose contrast is less than 4.5. */
export function pale() {
  return [...document.querySelectorAll("body *")].filter(showsText)
    .map((it) => [contrast(getComputedStyle(it).color, behind(it)), it])
    .filter(([found]) => found < 4.5)
    .map(([found, it]) => `${it.tagName}.${it.className} ${it.textContent.slice(0, 20)} ${found.toFixed(2)}`);
}

/** The least contrast of selected words, how many there are, and how many letters are selected. */
export function selection() {
  const words = [...document.querySelectorAll(".CodeMirror-line span[class^=cm-]")];
  const colour = background(".CodeMirror-selected");
  return {
    least: Math.min(...words.map((it) => contrast(getComputedStyle(it).color, colour))), words: words.length,
    ink: getComputedStyle(words[0], "::selection").color, letters: page.editor.code.getSelection().length,
  };
}

function within(element, corner, scale) {
  const { x, y, right, bottom } = element.getBoundingClientRect();
  return {
    x: (x - corner.x) / scale,
    y: (y - corner.y) / scale,
    right: (right - corner.x) / scale,
    bottom: (bottom - corner.y) / scale
  };
}

/** The locks in the text: what they say, where they are, and whether nothing lies over them. */
export function chips() {
  return [...document.querySelectorAll(".inlay .lock")].map((it) => {
    const place = within(it, { x: 0, y: 0 }, 1);
    const top = document.elementFromPoint((place.x + place.right) / 2, (place.y + place.bottom) / 2);
    return { text: it.textContent, ...place, isSeen: top?.closest(".lock") === it };
  });
}

function isInside({ x, y }, box) {
  return x > box.x + 6 && x < box.right - 6 && y > box.y + 5 && y < box.bottom - 5;
}

function goesThrough(line, boxes) {
  const length = line.getTotalLength();
  for (let at = 8; at < length - 12; at += 8) {
    const point = line.getPointAtLength(at);
    if (boxes.some((box) => isInside(point, box))) return true;
  }
  return false;
}

/** How many pairs of boxes lie on each other. */
function overlaps(boxes) {
  const areApart = (one, other) =>
    one.right <= other.x + 1 || other.right <= one.x + 1 || one.bottom <= other.y + 1 || other.bottom <= one.y + 1;
  return boxes.flatMap((one, number) => boxes.slice(number + 1).filter((other) => !areApart(one, other))).length;
}

/** Of a graph: boxes that lie on each other, lines that go through boxes, and the size of its letters. */
export function graph() {
  const scale = page.view.zoom;
  const corner = document.querySelector(".graph").getBoundingClientRect();
  const boxes = [...document.querySelectorAll(".block")].map((it) => within(it, corner, scale));
  const lines = [...document.querySelectorAll(".graph .edge")];
  return {
    boxes: boxes.length, lines: lines.length, loops: document.querySelectorAll(".graph .loop").length,
    overlaps: overlaps(boxes),
    through: lines.filter((line) => goesThrough(line, boxes)).length,
    size: parseFloat(getComputedStyle(document.querySelector(".block .step")).fontSize) * scale,
  };
}

/** Of a picture of the store: its arrows, boxes that lie on each other, and arrows that go through boxes. */
export function store() {
  const number = (it, name) => Number(it.getAttribute(name));
  const boxes = [...document.querySelectorAll(".store .box")].map((it) => ({
    x: number(it, "x"), y: number(it, "y"),
    right: number(it, "x") + number(it, "width"), bottom: number(it, "y") + number(it, "height"),
  }));
  const arrows = [...document.querySelectorAll(".store .edge")];
  return {
    boxes: boxes.length, arrows: arrows.length, overlaps: overlaps(boxes),
    through: arrows.filter((line) => goesThrough(line, boxes)).length,
  };
}

/** How wide the page and the text are, and how high the text. */
export function room() {
  return {
    page: document.documentElement.scrollWidth,
    window: innerWidth,
    text: document.querySelector(".CodeMirror-lines").clientWidth,
    height: document.querySelector(".CodeMirror-scroll").clientHeight,
    letter: page.editor.code.defaultCharWidth(),
  };
}

/** What axe-core finds. */
export async function violations() {
  const found = await axe.run(document, { resultTypes: ["violations"] });
  return found.violations.map(
    ({ impact, id, nodes }) =>
      `${impact} ${id}: ${nodes.slice(0, 3).map(({ html }) => html.slice(0, 120)).join(" | ")}`);
}

/** What the page's last moment of these turns is, and what the program says that they come to. */
export async function lastMoment(turns) {
  const { momentsOf } = await import("./moments.js");
  const words = turns.map(String);
  const { document: start } = await page.askDocument(["schedule"]);
  const { document: told } = await page.askDocument(["schedule", ...words]);
  const chart = (await page.ask(["schedule", "--chart", ...words])).text;
  const last = momentsOf(page.program, start, told, chart, turns).at(-1);
  const valueText = (value) => (value === null ? "null" : String(value));
  const said = (objects) =>
    objects.map(({ name, fields }) => [name, fields.map((field) => [field.name, valueText(field.value)])]);
  return [
    [said(last.objects), last.output.map(String), last.threads.map(({ standing }) => standing)],
    [said(told.outcome.objects), told.outcome.output.map(String), told.outcome.threads.map(({ state }) => state)],
  ];
}

/** The program without its sections: whether it is accepted, and the greatest number of statements in a section. */
export async function apart(text) {
  const { takenApart } = await import("./apart.js");
  const answer = await page.sectc.ask(["inspect"], takenApart(text));
  const sections = answer.status ? [] : JSON.parse(answer.text).sections;
  return [answer.status, Math.max(0, ...sections.map(({ nodes }) => nodes.length - 1))];
}

/** In how many of the outcomes shown a condition holds. */
export async function holding(condition) {
  const { conditionOf } = await import("./condition.js");
  const names = { globals: ["a"], threads: ["p", "q"] };
  return page.views[4].answer.outcomes.filter(conditionOf(condition, names)).length;
}

function frame() {
  return new Promise((done) => requestAnimationFrame(() => setTimeout(done)));
}

function pause(time) {
  return new Promise((done) => setTimeout(done, time));
}

/** How long it takes until a key is shown, for so many keys, in order of time. */
export async function keyTimes(count) {
  page.editor.code.focus();
  const took = [];
  for (let key = 0; key < count; key++) {
    const begun = performance.now();
    page.editor.code.replaceRange("x", { line: 0, ch: 3 });
    await frame();
    took.push(performance.now() - begun);
    await pause(90);
  }
  return took.sort((one, other) => one - other);
}

/** The longest that the page answers nothing while it takes in the answer to a key. */
export async function longestTask(time) {
  const found = [0];
  const watch = new PerformanceObserver((list) => list.getEntries().forEach(({ duration }) => found.push(duration)));
  watch.observe({ entryTypes: ["longtask"] });
  page.editor.code.replaceRange("x", { line: 0, ch: 3 });
  await pause(time);
  watch.disconnect();
  return Math.max(...found);
}

/** How long the program takes to list outcomes. */
export async function outcomesTime(text) {
  const begun = performance.now();
  await page.sectc.ask(["outcomes", "--fuel", "1000", "--most", "20000", "--format", "json"], text);
  return performance.now() - begun;
}

/** The names of the files that were fetched, from this server or from elsewhere. */
export function fetched() {
  return performance.getEntriesByType("resource").map(({ name }) => name);
}

/** Clicks on a button, so many times at once. */
export function clicks(label, count) {
  const button =
    [...document.querySelectorAll("#panel-schedule button")].find(({ textContent }) => textContent === label);
  for (let click = 0; click < count; click++) button.click();
}

/** What is lit in the text for threads, each with the class of its colour. */
export function litForThreads() {
  return [...document.querySelectorAll("#code .at")].map(
    (it) => `${it.className.match(/thread-\d/)[0]} ${it.textContent}`);
}

/** The digest of the module that is served. */
export async function digest() {
  const bytes = await (await fetch("sectc.wasm")).arrayBuffer();
  return [...new Uint8Array(await crypto.subtle.digest("SHA-256", bytes))]
    .map((it) => it.toString(16).padStart(2, "0"))
    .join("");
}

/** Where the upper left corners of elements are. */
export function corners(selectors) {
  return selectors.map((selector) => {
    const { x, y } = document.querySelector(selector).getBoundingClientRect();
    return [x, y];
  });
}

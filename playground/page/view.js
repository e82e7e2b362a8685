// Elements of the page, and how what is shown becomes what shall be shown. Text always goes in as text, never as
// markup.

const SVG = "http://www.w3.org/2000/svg";
const HANDLERS = ["onclick", "onchange", "oninput", "onkeydown", "onsubmit", "onpointerenter", "onpointerleave"];

function filled(node, attributes, children) {
  for (const [name, value] of Object.entries(attributes)) {
    if (name.startsWith("on")) node[name] = value;
    else if (value === true) node.setAttribute(name, "");
    else if (value !== false && value !== undefined && value !== null) node.setAttribute(name, value);
  }
  node.append(...children.flat(Infinity).filter((child) => child !== null && child !== undefined && child !== false));
  return node;
}

/** An element with attributes (`onclick` and the like are listeners) and children; `null` is no child. */
export function element(name, attributes = {}, ...children) {
  return filled(document.createElement(name), attributes, children);
}

/** An element of a picture. */
export function drawn(name, attributes = {}, ...children) {
  return filled(document.createElementNS(SVG, name), attributes, children);
}

/** A button that does something. */
export function button(label, onclick, attributes = {}) {
  return element("button", { type: "button", onclick, ...attributes }, label);
}

/** A table of rows of cells, the first row of headings. */
export function table(caption, [head, ...body], attributes = {}) {
  const cell = (name, more) => (content) => content instanceof Element && /^T[HD]$/.test(content.tagName)
    ? content : element(name, more, content);
  return element("table", attributes, element("caption", {}, caption),
    element("thead", {}, element("tr", {}, ...head.map(cell("th", { scope: "col" })))),
    element("tbody", {}, ...body.map((row) => element("tr", {}, ...row.map(cell("td", {}))))));
}

function isLike(one, other) {
  return one.nodeType === other.nodeType && one.nodeName === other.nodeName && one.id === other.id
    && one.dataset?.key === other.dataset?.key;
}

function takeAttributes(node, wanted) {
  const stays = (name) => name === "open" && node.nodeName === "DETAILS";
  for (const { name } of [...node.attributes])
    if (!wanted.hasAttribute(name) && !stays(name)) node.removeAttribute(name);
  for (const { name, value } of wanted.attributes) {
    if (node.getAttribute(name) !== value && !stays(name)) node.setAttribute(name, value);
  }
  for (const name of HANDLERS) if (node[name] !== wanted[name]) node[name] = wanted[name];
}

/** Makes an element as another is, in its place: so it keeps the focus, and how far it is scrolled. */
function become(node, wanted) {
  if (node.nodeType === Node.TEXT_NODE) {
    if (node.data !== wanted.data) node.data = wanted.data;
    return;
  }
  takeAttributes(node, wanted);
  if (node.nodeName === "TEXTAREA") return;
  update(node, ...wanted.childNodes);
  if (node.nodeName === "SELECT"
    || (node.nodeName === "INPUT" && wanted.hasAttribute("value") && node.value !== wanted.value)) {
    node.value = wanted.value;
  }
}

/** Makes these the children of an element. What is there already stays where it is like what is wanted. */
export function update(parent, ...wanted) {
  let at = parent.firstChild;
  for (const child of wanted.flat(Infinity).filter((it) => it !== null && it !== undefined && it !== false)) {
    const node = child instanceof Node ? child : document.createTextNode(child);
    let there = at;
    while (there && there !== node && !isLike(there, node)) there = there.nextSibling;
    if (!there) {
      parent.insertBefore(node, at);
      continue;
    }
    while (at !== there) {
      const next = at.nextSibling;
      at.remove();
      at = next;
    }
    if (there !== node) become(there, node);
    at = there.nextSibling;
  }
  while (at) {
    const next = at.nextSibling;
    at.remove();
    at = next;
  }
}

/** A text that is set in the manner of the program where it stands between backquotes. */
export function prose(text) {
  return text.split(/(`[^`]+`)/).filter(Boolean)
    .map((part) => (part.startsWith("`") && part.length > 1 ? element("code", {}, part.slice(1, -1)) : part));
}

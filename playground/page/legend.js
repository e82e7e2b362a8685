// The words of locks, each of which tells at a click what it means.
import { shape } from "./signs.js";
import { element, prose, update } from "./view.js";

const WORDS = {
  section: ["section", "The statements in `atomic { .. }`: they run as if no other thread ran meanwhile. A section "
    + "takes all its locks when it begins, and gives them back when it ends."],
  R: ["R · read", "`R a` lets the section read the object `a`. Other threads may read it too, and none may write it."],
  W: ["W · write", "`W a` lets the section read and write the object `a`. Nobody else may touch it meanwhile."],
  M: ["M · make", "`M class 1` lets the section make objects of class 1 with `new`, as several threads may."],
  class: ["class", "Objects that the compiler can't tell apart, since one local or one field may refer to any of them. "
    + "A lock on a class is taken where a path to an object would be too long."],
  all: ["all", "`W all`, the lock of a section that is marked `all`, keeps out every other section with locks."],
  k: ["k", "How many fields a path in a lock may have. With 2, `R head.next.next` may stand; one field more becomes "
    + "the lock on the whole class."],
  IS: ["IS · will read below", "The thread reads some object of this class. It goes with all modes but X."],
  IX: ["IX · will write below", "The thread writes or makes some object of this class. It goes with IS and IX."],
  S: ["S · shared", "The thread reads this object, or all objects of this class. It goes with IS and S."],
  SIX: ["SIX · reads all, writes below", "S and IX at once. It goes with IS alone."],
  X: ["X · exclusive", "The thread writes this object, or all objects of this class. It goes with no other mode."],
};
const SHOWN = ["section", "R", "W", "M", "class", "all", "k", "IS", "IX", "S", "SIX", "X"];
const GAP = 6;

function explained() {
  return document.getElementById("explained");
}

function place(box, word) {
  const { left, bottom, top } = word.getBoundingClientRect();
  const { width, height } = box.getBoundingClientRect();
  const below = bottom + GAP + height <= innerHeight;
  box.style.left = `${Math.max(Math.min(left, innerWidth - width - GAP), GAP)}px`;
  box.style.top = `${below ? bottom + GAP : Math.max(top - height - GAP, GAP)}px`;
}

function explain(name, word) {
  const box = explained();
  const [title, text] = WORDS[name];
  update(box, element("strong", {}, shape(name) ?? null, title), element("p", {}, prose(text)));
  box.hidePopover();
  box.showPopover();
  place(box, word);
}

/** A word that tells what it means. */
export function term(name, ...label) {
  return element("button", {
    type: "button", class: "term", "data-term": name, "aria-haspopup": "dialog",
    onclick: (event) => explain(name, event.currentTarget),
  }, label.length ? label : [shapeOf(name), name]);
}

function shapeOf(name) {
  return /^[A-Z]+$/.test(name) ? shape(name) : null;
}

/** The words of the legend in a row. */
export function legend() {
  return SHOWN.map((name) => element("li", {}, term(name)));
}

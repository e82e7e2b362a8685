// The source text in CodeMirror: its colours, what is said of its pieces, and the locks beside each section.
import { defineLanguage } from "./syntax.js";
import { element } from "./view.js";

/** A place of the program, with line and column from 1, as CodeMirror has it. */
function position({ line, column }) {
  return { line: line - 1, ch: column - 1 };
}

/** Wrapped lines go on below the beginning of their text. */
function hang(editor, line, node) {
  const offset = (globalThis.CodeMirror.countColumn(line.text, null, 4) + 2) * editor.defaultCharWidth();
  node.style.textIndent = `-${offset}px`;
  node.style.paddingLeft = `${4 + offset}px`;
}

export class Editor {
  /**
   * `changed` is called after each change of the text, `stops` after each change of the lines to stop at, and `moved`
   * with the place of the cursor after each move.
   */
  constructor(place, { changed, stops, moved }) {
    const { CodeMirror } = globalThis;
    defineLanguage(CodeMirror);
    this.layers = new Map();
    this.code = CodeMirror(place, {
      mode: "sect",
      lineNumbers: true,
      lineWrapping: true,
      matchBrackets: true,
      autoCloseBrackets: true,
      indentUnit: 2,
      gutters: ["CodeMirror-linenumbers", "stops"],
      styleActiveLine: true,
      undoDepth: 1000,
      maxHighlightLength: 2000,
      screenReaderLabel: "Source text. Escape and then Tab leaves it.",
      extraKeys: {
        Tab: (editor) => editor.execCommand(editor.somethingSelected() ? "indentMore" : "insertSoftTab"),
        "Shift-Tab": "indentLess",
        "Ctrl-/": "toggleComment",
        "Cmd-/": "toggleComment",
        Esc: (editor) => this.release(editor),
      },
    });
    this.code.on("renderLine", hang);
    this.code.on("change", () => changed());
    this.code.on("cursorActivity", () => moved(this.cursor));
    this.code.on("gutterClick", (_editor, line) => {
      this.toggleStop(line);
      stops();
    });
  }

  /** After Escape the next Tab goes on to what follows the text, as elsewhere on the page. */
  release(editor) {
    const keys = { Tab: false, "Shift-Tab": false };
    editor.addKeyMap(keys);
    const back = () => {
      editor.removeKeyMap(keys);
      editor.off("blur", back);
      editor.off("change", back);
    };
    editor.on("blur", back);
    editor.on("change", back);
  }

  /** Where the cursor is, with line and column from 1. */
  get cursor() {
    const { line, ch } = this.code.getCursor();
    return { line: line + 1, column: ch + 1 };
  }

  get text() {
    return this.code.getValue();
  }

  /** Puts another text in the place of this one, which undoing brings back. */
  set text(text) {
    if (text === this.text) return;
    const last = this.code.lastLine();
    this.code.replaceRange(text, { line: 0, ch: 0 }, { line: last, ch: this.code.getLine(last).length });
    this.code.setCursor(0, 0);
  }

  /** Changes a piece of the text, as a remedy asks for. */
  replace(span, text) {
    this.code.replaceRange(text, position(span.start), position(span.end));
  }

  /** Shows pieces of the text in one way, each `{ span, name, title }`, in place of those that were so before. */
  show(layer, pieces) {
    this.code.operation(() => {
      this.layers.get(layer)?.forEach((mark) => mark.clear());
      this.layers.set(layer, pieces.map(({ span, name, title }) =>
        this.code.markText(position(span.start), position(span.end),
          { className: name, ...(title ? { attributes: { title } } : {}) })));
    });
  }

  /**
   * Puts elements behind pieces of the text, each `{ span, key, make }`, in place of those of the same layer. One that
   * is there with the same key stays.
   */
  put(layer, pieces) {
    const at = ({ line, ch }) => `${line}:${ch}`;
    const old = new Map(
      (this.layers.get(layer) ?? []).map((it) => [`${at(it.mark.find() ?? { line: -1, ch: 0 })} ${it.key}`, it]));
    this.code.operation(() => {
      const now = pieces.map(({ span, key, make }) => {
        const place = position(span.end);
        const name = `${at(place)} ${key}`;
        const there = old.get(name);
        old.delete(name);
        return there ?? {
          key,
          mark: this.code.setBookmark(place, { widget: make(), insertLeft: false, handleMouseEvents: false })
        };
      });
      old.forEach(({ mark }) => mark.clear());
      this.layers.set(layer, now);
    });
  }

  /** Brings a piece into sight. */
  reveal(span) {
    this.code.scrollIntoView({ from: position(span.start), to: position(span.end) }, 40);
  }

  /** Selects a piece, with the focus. */
  select(span) {
    this.code.setSelection(position(span.start), position(span.end));
    this.code.focus();
    this.reveal(span);
  }

  toggleStop(line) {
    const isSet = this.code.lineInfo(line).gutterMarkers?.stops;
    const node = element("span", { class: "stop", title: "a run stops before this line" }, "●");
    this.code.setGutterMarker(line, "stops", isSet ? null : node);
  }

  /** The lines to stop at, from 1. */
  get stops() {
    const found = [];
    this.code.eachLine((line) => {
      if (line.gutterMarkers?.stops) found.push(line.lineNo() + 1);
    });
    return found;
  }

  /** Measures anew: the editor has come into sight, or its place has another size. */
  refresh() {
    this.code.refresh();
  }
}

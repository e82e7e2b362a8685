// The colours of a text: how CodeMirror reads the language, token by token.

const KEYWORDS = new Set("record protected_by global proc thread int null new print if else while atomic all call class"
  .split(" "));

function token(stream) {
  if (stream.eatSpace()) return null;
  if (stream.match("//")) {
    stream.skipToEnd();
    return "comment";
  }
  if (stream.match(/^\d+/)) return "number";
  if (stream.match(/^[A-Za-z_]\w*/)) {
    const word = stream.current();
    return word === "atomic" ? "keyword atomic" : KEYWORDS.has(word) ? "keyword" : "name";
  }
  if (stream.match(/^(==|!=|<=|[-+*=<.])/)) return "operator";
  stream.next();
  return null;
}

/** Tells CodeMirror the language, by the name `sect`. */
export function defineLanguage(CodeMirror) {
  CodeMirror.defineMode("sect", ({ indentUnit }) => ({
    startState: () => ({ depth: 0 }),
    token(stream, state) {
      const kind = token(stream);
      if (stream.current() === "{") state.depth++;
      if (stream.current() === "}") state.depth = Math.max(state.depth - 1, 0);
      return kind;
    },
    indent: (state, after) => (after.trimStart().startsWith("}") ? state.depth - 1 : state.depth) * indentUnit,
    electricInput: /^\s*\}$/,
    lineComment: "//",
  }));
}

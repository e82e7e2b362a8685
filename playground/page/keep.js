// What the browser keeps for the reader: the draft of this tab, the last text of one's own, and light or dark.

function stored(place, name) {
  try {
    return place()[name] ?? null;
  } catch {
    return null;
  }
}

function store(place, name, text) {
  try {
    place()[name] = text;
  } catch { /* nothing is kept where the browser allows none of it, or has no room */ }
}

const session = () => sessionStorage;
const local = () => localStorage;

export const keep = {
  get draft() {
    return JSON.parse(stored(session, "sectc.draft"));
  },
  set draft(state) {
    store(session, "sectc.draft", JSON.stringify(state));
  },
  get own() {
    return stored(local, "sectc.own");
  },
  set own(text) {
    store(local, "sectc.own", text);
  },
  get theme() {
    return stored(local, "sectc.theme") ?? "auto";
  },
  set theme(name) {
    store(local, "sectc.theme", name);
  },
};

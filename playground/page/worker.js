// Runs commands of the program, one after another, beside the page. One message has the compiled module; each other
// one has `words` and `text`, and its answer the status and what was printed. Each command has an instance of its own,
// so nothing is left of one that failed.
import { Exit, Run } from "./libc.js";

let handModule;
const compiled = new Promise((resolve) => { handModule = resolve; });

async function answer(words, text) {
  const run = new Run(["sectc", ...words], new TextEncoder().encode(text));
  const { exports } = await WebAssembly.instantiate(await compiled, { env: run.imports() });
  run.start(exports);
  try {
    return { status: exports.sectc_main(), text: run.text() };
  } catch (stopped) {
    if (stopped instanceof Exit) return { status: stopped.status, text: run.text() };
    throw stopped;
  }
}

onmessage = async ({ data: { module, number, words, text } }) => {
  if (module) {
    handModule(module);
    return;
  }
  try {
    postMessage({ number, ...(await answer(words, text)) });
  } catch (failure) {
    postMessage({ number, failure: String(failure) });
  }
};

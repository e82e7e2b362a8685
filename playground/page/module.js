// The program's module: it is fetched and compiled once, and handed to workers from here.

/** The module isn't there, or this browser can't run it. The message is for the reader of the page. */
export class Unavailable extends Error {}

const TOO_OLD = "This browser can't run the program: its module needs WebAssembly with memories of 64 bits. "
  + "Chromium, Chrome and Edge from version 133 on and Firefox from 134 on have them.";
const NOT_BUILT =
  "The program isn't here yet. Run `playground/build`, and serve the folder `playground/out` over http: " +
  "`python3 -m http.server -d playground/out 8080`.";

/** The least module that has a memory of 64 bits. */
const PROBE = Uint8Array.of(0, 97, 115, 109, 1, 0, 0, 0, 5, 3, 1, 4, 1);

async function bytesOf(url) {
  const answer = await fetch(url).catch(() => null);
  if (!answer?.ok) throw new Unavailable(NOT_BUILT);
  return answer;
}

async function compile(answer) {
  if (answer.headers.get("content-type") === "application/wasm") return WebAssembly.compileStreaming(answer);
  return WebAssembly.compile(await answer.arrayBuffer());
}

/** The compiled module of the program. Fails with `Unavailable` where there is none. */
export async function compiledModule(url) {
  if (!globalThis.WebAssembly || !WebAssembly.validate(PROBE)) throw new Unavailable(TOO_OLD);
  const answer = await bytesOf(url);
  try {
    return await compile(answer);
  } catch {
    throw new Unavailable(TOO_OLD);
  }
}

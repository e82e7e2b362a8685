// What the page shows, as the part of an address behind `#`: compressed, and in letters that go through every program.

const FORM = "1.";
/** Longer addresses are cut by some programs and slow in others: such a text is kept as a draft alone. */
export const LONGEST = 100_000;

/** An address has a part that no page can be made of. */
export class BadLink extends Error {}

async function through(stream, bytes) {
  return new Uint8Array(await new Response(new Blob([bytes]).stream().pipeThrough(stream)).arrayBuffer());
}

function letters(bytes) {
  let text = "";
  for (let at = 0; at < bytes.length; at += 8192) text += String.fromCharCode(...bytes.subarray(at, at + 8192));
  return btoa(text).replaceAll("+", "-").replaceAll("/", "_").replace(/=+$/, "");
}

function bytesOf(text) {
  return Uint8Array.from(atob(text.replaceAll("-", "+").replaceAll("_", "/")), (letter) => letter.charCodeAt(0));
}

/** The part of an address for what the page shows. */
export async function written(state) {
  const bytes = new TextEncoder().encode(JSON.stringify(state));
  return FORM + letters(await through(new CompressionStream("deflate-raw"), bytes));
}

function isState({ text, k, view }) {
  return typeof text === "string" && /^[0-3]$/.test(k ?? "2") && typeof (view ?? "") === "string";
}

/** What an address asks for; nothing where it asks for nothing. Addresses of old had the text alone, in escapes. */
export async function read(part) {
  if (!part) return null;
  try {
    if (!part.startsWith(FORM)) return { text: decodeURIComponent(part) };
    const bytes = await through(new DecompressionStream("deflate-raw"), bytesOf(part.slice(FORM.length)));
    const state = JSON.parse(new TextDecoder("utf-8", { fatal: true }).decode(bytes));
    if (isState(state)) return state;
  } catch { /* the link is broken, as is said below */ }
  throw new BadLink();
}

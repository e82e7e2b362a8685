// Prints axe-core, as Chromium brings it along for its own audits: it lies in the library of Lighthouse, among the
// resources of the browser.
"use strict";
const { readFileSync } = require("fs");
const { brotliDecompressSync, gunzipSync } = require("zlib");

const PACK = "/usr/lib/chromium/resources.pak";

/** What a resource of the pack holds, unpacked where it is packed. */
function unpacked(bytes) {
  if (bytes[0] === 0x1e && bytes[1] === 0x9b) return brotliDecompressSync(bytes.subarray(8));
  return bytes[0] === 0x1f && bytes[1] === 0x8b ? gunzipSync(bytes) : bytes;
}

function* resources(pack) {
  const count = pack.readUInt16LE(8);
  for (let number = 0; number < count; number++) {
    const at = 12 + number * 6;
    yield pack.subarray(pack.readUInt32LE(at + 2), pack.readUInt32LE(at + 8));
  }
}

/** The value of the template literal that begins at a place. */
function literalAt(text, start) {
  let end = start + 1;
  while (text[end] !== "`") end += text[end] === "\\" ? 2 : 1;
  return (0, eval)(text.slice(start, end + 1));
}

process.exitCode = 1;
for (const bytes of resources(readFileSync(PACK))) {
  if (bytes.length < 100_000) continue;
  const text = unpacked(bytes).toString("utf8");
  const start = text.indexOf("`/*! axe v");
  if (start >= 0) {
    process.stdout.write(literalAt(text, start));
    process.exitCode = 0;
    break;
  }
}

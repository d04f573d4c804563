// Plays games by an engine in a page of its own, and compares each output. `tools/check_page` calls `playAll` there.
import { bytesOfBase64 } from "../src/bytes.mjs";
import { bytesOfLetters } from "../src/letters.mjs";
import { unpacked } from "../src/lzma.mjs";
import { runToEnd } from "../src/program.mjs";
import { differs } from "./difference.mjs";
import { ENGINE, ENGINE_LENGTH } from "./parts.mjs";

let module = null;

async function engine() {
  module ??= await WebAssembly.compile(unpacked(bytesOfLetters(ENGINE), ENGINE_LENGTH));
  return module;
}

// Milliseconds that a run takes on keys that are typed one after the other. `game` and `keys` are texts.
globalThis.timeOf = async (game, keys) => {
  const [text, bytes] = [game, keys].map((one) => new TextEncoder().encode(one));
  const compiled = await engine();
  const start = performance.now();
  runToEnd(compiled, ["ps_play", "game"], new Map([["game", text]]), bytes);
  return performance.now() - start;
};

// What is played otherwise than it must, in lines. A case is { name, game, keys, output, fault }, where three are bytes in base64, and
// `fault` is the line of a fault or null.
globalThis.playAll = async (cases) => {
  const compiled = await engine();
  return cases.map(({ name, game, keys, output, fault }) => {
    const why = differs(compiled, ...[game, keys, output].map(bytesOfBase64), fault);
    return why ? `${name}: ${why}` : "";
  }).filter((line) => line !== "");
};

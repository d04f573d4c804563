// Whether an engine plays a game as it must.
import { runToEnd } from "../src/program.mjs";

const GAME = "game";

function isSame(a, b) {
  return a.length === b.length && a.every((byte, place) => byte === b[place]);
}

// What an engine does otherwise than it must, in words; nothing where it does as it must. `fault` is the line of a fault, or null.
export function differs(module, game, keys, output, fault) {
  let played;
  try {
    played = runToEnd(module, ["ps_play", GAME], new Map([[GAME, game]]), keys);
  } catch (error) {
    return `the engine failed: ${error}`;
  }
  const errors = new TextDecoder().decode(played.errors);
  if (errors !== (fault === null ? "" : `${fault}\n`)) return `it says ${JSON.stringify(errors)}`;
  if (played.status !== (fault === null ? 0 : 1)) return `its status is ${played.status}`;
  return isSame(played.output, output) ? "" : "its output is another one";
}

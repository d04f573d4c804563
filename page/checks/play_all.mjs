// Plays games by an engine in node, and compares each output. `tools/check_engine` calls it: node play_all.mjs ENGINE CASES
//
// ENGINE is the file of a WebAssembly module; CASES is a file of JSON, a list of { name, game, keys, output, fault }, where these are
// names of files, and `fault` is the line of a fault or null. A line tells of each game that is played otherwise.
import { readFileSync } from "node:fs";
import { differs } from "./difference.mjs";

const [engine, cases] = process.argv.slice(2);
const module = new WebAssembly.Module(readFileSync(engine));
for (const { name, game, keys, output, fault } of JSON.parse(readFileSync(cases, "utf8"))) {
  const wanted = fault === null ? readFileSync(output) : new Uint8Array();
  const why = differs(module, readFileSync(game), fault === null ? readFileSync(keys) : new Uint8Array(), wanted, fault);
  if (why) console.log(`${name}: ${why}`);
}

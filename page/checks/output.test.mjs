// Tests of how an output is told apart, and of what is left out of a flood.
import assert from "node:assert";
import { test } from "node:test";
import { Answer } from "../src/answer.mjs";
import { OutputReader } from "../src/output.mjs";

const OUTPUT = "= A title\n# level 1\n#é#\n#P#\n\n! \n* level 1 done\n! * the end\n# level 2\n*\n\n*\n\n* the end\n";
const PARTS = [
  { kind: "title", text: "A title" },
  { kind: "level", text: "1" },
  { kind: "frame", rows: ["#é#", "#P#"] },
  { kind: "message", text: "" },
  { kind: "done", text: "1 done" },
  { kind: "message", text: "* the end" },
  { kind: "level", text: "2" },
  { kind: "frame", rows: ["*"] },
  { kind: "frame", rows: ["*"] },
  { kind: "ending", text: "the end" },
];

test("an output is told apart in whatever pieces it comes", () => {
  const bytes = new TextEncoder().encode(OUTPUT);
  for (const size of [1, 2, 3, 7, bytes.length]) {
    const reader = new OutputReader();
    const parts = [];
    for (let place = 0; place < bytes.length; place += size) parts.push(...reader.feed(bytes.subarray(place, place + size)));
    assert.deepStrictEqual(parts, PARTS);
  }
});

const frame = (number) => ({ kind: "frame", rows: [String(number)] });
const message = { kind: "message", text: "Stop" };

function kept(most, parts) {
  const answer = new Answer(most);
  parts.forEach((part) => answer.add(part));
  return answer.take();
}

test("frames are kept up to a limit, and of more the last ones", () => {
  const three = [frame(1), frame(2), frame(3)];
  assert.deepStrictEqual(kept(3, three), three);
  assert.deepStrictEqual(kept(3, [...three, frame(4)]), [frame(4)]);
  assert.deepStrictEqual(kept(1, three), [frame(3)]);
  assert.deepStrictEqual(kept(1, [frame(1), message, frame(2), frame(3)]), [frame(1), message, frame(3)]);
});

test("what was taken isn't told again", () => {
  const answer = new Answer(2);
  answer.add(frame(1));
  answer.take();
  assert.deepStrictEqual(answer.take(), []);
});

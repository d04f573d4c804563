// Tests of when the parts of an output are shown.
import assert from "node:assert";
import { beforeEach, mock, test } from "node:test";
import { Pacing } from "../src/pacing.mjs";

const frame = (number) => ({ kind: "frame", rows: [number] });
const DONE = { kind: "done", text: "1 done" };
const LEVEL = { kind: "level", text: "2" };

let shown;
const show = (part) => shown.push(part.rows?.[0] ?? part.kind);
const paced = (isStill = false) => new Pacing(show, () => isStill);

beforeEach(() => {
  shown = [];
  mock.timers.reset();
  mock.timers.enable({ apis: ["setTimeout"] });
});

test("frames follow one another after some time", () => {
  paced().add([frame(1), frame(2), frame(3)], true);
  assert.deepStrictEqual(shown, [1]);
  mock.timers.tick(80);
  assert.deepStrictEqual(shown, [1, 2]);
  mock.timers.tick(80);
  assert.deepStrictEqual(shown, [1, 2, 3]);
});

test("a key shows all frames that wait", () => {
  const pacing = paced();
  pacing.add([frame(1), frame(2), frame(3)], true);
  assert.ok(pacing.hurry());
  assert.deepStrictEqual(shown, [1, 2, 3]);
  mock.timers.tick(1000);
  assert.deepStrictEqual(shown, [1, 2, 3]);
});

test("without motion the last frame is shown alone", () => {
  paced(true).add([frame(1), frame(2), frame(3)], true);
  assert.deepStrictEqual(shown, [3]);
});

test("a won board stays, and a key that comes too soon isn't played", () => {
  const pacing = paced();
  pacing.add([frame(1), DONE, LEVEL, frame(2)], true);
  assert.deepStrictEqual(shown, [1, "done"]);
  assert.ok(!pacing.hurry());
  assert.deepStrictEqual(shown, [1, "done"]);
  mock.timers.tick(1000);
  assert.deepStrictEqual(shown, [1, "done", "level", 2]);
  assert.ok(pacing.hurry());
});

test("a replay is shown at once", () => {
  const pacing = paced();
  pacing.add([frame(1), DONE, LEVEL, frame(2)], false);
  assert.deepStrictEqual(shown, [1, "done", "level", 2]);
  assert.ok(pacing.hurry());
});

test("what is forgotten isn't shown", () => {
  const pacing = paced();
  pacing.add([frame(1), frame(2)], true);
  pacing.clear();
  mock.timers.tick(1000);
  assert.deepStrictEqual(shown, [1]);
});

// Tests of texts and bytes.
import assert from "node:assert";
import { test } from "node:test";
import { harmless, harmlessLines } from "../src/harmless.mjs";
import { bytesOfLetters } from "../src/letters.mjs";

test("no character of a text is an order, or turns its direction", () => {
  assert.equal(harmless("a\x1b[1m\u202eb\u2069\n\x85"), "a·[1m·b··".concat("·"));
  assert.equal(harmlessLines("a\x07\nb"), "a·\nb");
  assert.equal(harmless("</script>\"'"), "</script>\"'");
});

test("letters are bytes, five for four", () => {
  assert.deepStrictEqual([...bytesOfLetters("!!!!!")], [0, 0, 0, 0]);
  assert.deepStrictEqual([...bytesOfLetters("!!!!#")], [0, 0, 0, 1]);
  assert.deepStrictEqual([...bytesOfLetters("!!!##!!!##")], [0, 0, 0, 86, 0, 0, 0, 86]);
  assert.equal(bytesOfLetters("").length, 0);
});

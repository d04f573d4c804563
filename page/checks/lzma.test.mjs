// Tests of unpacking, by texts that Python's module lzma has packed, with several settings.
import assert from "node:assert";
import { test } from "node:test";
import { bytesOfBase64, textOf } from "../src/bytes.mjs";
import { unpacked } from "../src/lzma.mjs";

const LINES = Array.from({ length: 60 }, (_, number) => `line ${(number * number) % 97}: the quick brown fox\n`);
const TEXT = LINES.join("") + "ab".repeat(200);
const PACKED = [
  [
    "XQAAAAT//////////wA2GkofCKAmVk4NbLil7WOcjnzbTvaeS3gYVlz3HzB21opOb3TelZMJUPcP0rR66qnZRCZg+4T0Y9+RX/QtY/GtbhqqDQN+shPygD6L",
    "HPl14fqXCw0uZbgw9pqqwOZo6rNddtvzuNyYA9v+LET6fjK+M3xmbbrKzranPqnEIUmRMvAKA1zgynbygIsXLwBIh8llmWARnQzZHYCewQRsaG40eY7152kE",
    "L8RKF/2d0Fp3/zaXWthmDxyG1vFgF///iPB0AA==",
  ],
  [
    "EgAAAAT//////////wA2Gx0U3xHmX+RDLAaee/0Cpo1cJK5Qcb7Rfib64ARYImGntT3FlLDH/dqb7pgfGZ7T+zCHhv5Bzdqg0tvysjC3yno3YwJ6M3NYSR0u",
    "5Mnxsf9qyIQMNDTR8UzBShZWXZO2oLSNLLPwD1BGv7x3S+3UTXUxs0yt4gQRXEvVnwx7eQ6yic2Iw1ADzr9CwSYsvg7C0fSyvQ2TVJgw8n4yxYuL3ePqLIar",
    "gsboUBiRCCFyaJpW3na7CxoMoDZEK6L528fdYgRGKPQmD28Xv7//2Z2rlA==",
  ],
  [
    "uAAAAAT//////////wA2GkofCJVl/RI7F4AW92a4lfqDrSkBO4/XBhjisqhz14gLGMwalLXEgqDh+IJ7kLOMP8gBcExPjZHmco7OLhp9xDmUsWVDYfz6tETw",
    "gWGktnXSWByrJuiEc8XOnVYBTC5I7UIaITTMypnjsR0vB7ZcvsOJreQauYYLepcHhFd8Cr3mK8GfJHeXvjQGbT4HGu8JcexoYdaWHgVcsE8MiV3FAZ5B38hX",
    "KS1J/13JHR/00mx2E1Q/pR5IbU7FMManKDzpxsIT///u3gHI",
  ],
];

test("what is packed is unpacked", () => {
  for (const parts of PACKED) {
    assert.equal(textOf(unpacked(bytesOfBase64(parts.join("")), TEXT.length)), TEXT);
  }
});

test("the front of a text can be unpacked", () => {
  assert.equal(textOf(unpacked(bytesOfBase64(PACKED[0].join("")), 100)), TEXT.slice(0, 100));
});

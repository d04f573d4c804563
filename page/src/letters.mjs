// Bytes that stand in a script as letters, five for four bytes. `tools/letters.py` writes them.

const LETTERS = Array.from({ length: 94 }, (_, place) => String.fromCharCode(33 + place)).filter((one) => !"\"'`\\<>&$/".includes(one));
const VALUES = new Map(LETTERS.map((letter, value) => [letter.charCodeAt(0), value]));

// The bytes of letters; behind them there may be up to three zeros.
export function bytesOfLetters(letters) {
  const bytes = new DataView(new ArrayBuffer((letters.length / 5) * 4));
  for (let group = 0; group < letters.length / 5; group++) {
    let word = 0;
    for (let place = 0; place < 5; place++) word = word * LETTERS.length + VALUES.get(letters.charCodeAt(group * 5 + place));
    bytes.setUint32(group * 4, word);
  }
  return new Uint8Array(bytes.buffer);
}

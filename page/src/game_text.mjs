// The text of the game, as bytes and in a text box, where it can be changed.
import { bytesOf, textOf } from "./bytes.mjs";

export class GameText {
  #box;
  #shown = "";
  #bytesShown = new Uint8Array();

  // The text that is played.
  bytes = new Uint8Array();

  constructor(box) {
    this.#box = box;
  }

  // Shows a text in the box. The box may change line ends and more, so what it has then is remembered.
  show(bytes) {
    this.#box.value = textOf(bytes);
    this.#shown = this.#box.value;
    this.#bytesShown = bytes;
  }

  // The bytes of the text in the box: those that it was shown where nobody has changed it.
  typed() {
    return this.#box.value === this.#shown ? this.#bytesShown : bytesOf(this.#box.value);
  }

  // This text is played from now on.
  use(bytes) {
    this.bytes = bytes;
  }

  // Marks the line of a fault, as the player tells it, and brings it into sight.
  mark(fault) {
    const number = Number(/^line (\d+):/.exec(fault)?.[1] ?? 0);
    const lines = this.#box.value.split("\n");
    if (number < 1 || number > lines.length) return;
    const start = lines.slice(0, number - 1).reduce((length, line) => length + line.length + 1, 0);
    this.#box.setSelectionRange(start, start + lines[number - 1].length);
    this.#box.scrollTop = (this.#box.scrollHeight / lines.length) * number - this.#box.clientHeight / 2;
  }
}

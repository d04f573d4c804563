// A run of a game in a worker: it is handed keys one after the other, each when the one before is answered.
import { bytesOf } from "./bytes.mjs";

// Keys of a replay that are handed over at once: few enough that a page sees how it goes on.
const PIECE = 64;

export class Run {
  #helpers;
  #helper = null;

  // Whether it waits for an answer.
  isBusy = false;
  // The keys that it was handed, and the level at which it began.
  keys = "";
  level = 1;

  constructor(helpers) {
    this.#helpers = helpers;
  }

  // Begins anew, by a worker of its own. What the program wrote before the first key.
  async begin(text, level) {
    this.end();
    this.keys = "";
    this.level = level;
    return this.#ask("begin", { text, level });
  }

  // Hands it a key. What the program wrote.
  async type(key) {
    this.keys += key;
    return this.#ask("type", { keys: bytesOf(key), isReplay: false });
  }

  // Hands it many keys, piece by piece, and calls `told` with what the program wrote for each piece. How many it was handed.
  async replay(keys, told) {
    let answer = { isOver: false };
    const characters = [...keys];
    for (let place = 0; place < characters.length && !answer.isOver; place += PIECE) {
      const piece = characters.slice(place, place + PIECE).join("");
      this.keys += piece;
      answer = await this.#ask("type", { keys: bytesOf(piece), isReplay: true });
      told(answer);
    }
    return this.keys.length;
  }

  // What a check says of a text.
  async check(text) {
    this.end();
    return this.#ask("check", { text });
  }

  // Ends it, whatever it is doing.
  end() {
    this.#helper?.end();
    this.#helper = null;
    this.isBusy = false;
  }

  async #ask(name, request) {
    this.#helper ??= this.#helpers.begin();
    const helper = this.#helper;
    this.isBusy = true;
    try {
      return await helper.ask(name, request);
    } finally {
      if (helper === this.#helper) this.isBusy = false;
    }
  }
}

// A game that is played in the page: keys go to a run of it, and what that writes is shown.
import { Board } from "./board.mjs";
import { GameText } from "./game_text.mjs";
import { harmless, harmlessLines } from "./harmless.mjs";
import { Ended } from "./helper.mjs";
import { ACT, listenToKeyboard, listenToPad, showPadOf } from "./keys.mjs";
import { Pacing } from "./pacing.mjs";
import { Run } from "./run.mjs";

// Milliseconds behind which a page says that the program still works at a key.
const LONG = 200;

const element = (id) => document.getElementById(id);
const motion = matchMedia("(prefers-reduced-motion: reduce)");

export class Player {
  #run;
  #checking;
  #board = new Board(element("board"), element("frame"));
  #pacing = new Pacing((part) => this.#show(part), () => motion.matches);
  #text = new GameText(element("text"));
  #facts = { levels: 0 };
  #typed = [];
  #isOpen = false;
  #hasMessage = false;
  #patience = null;

  constructor(helpers) {
    this.#run = new Run(helpers);
    this.#checking = new Run(helpers);
    listenToKeyboard((key, isRepeated) => this.#press(key, isRepeated));
    listenToPad(element("pad"), (key) => this.#press(key, false));
    const clicked = (id, act) => element(id).addEventListener("click", act);
    clicked("next", () => { this.#press(ACT, false); element("frame").focus(); });
    clicked("stop", () => this.#stop());
    clicked("shorter", () => this.#begin(this.#run.level, this.#run.keys.slice(0, -1)));
    clicked("anew", () => this.#begin(this.#run.level, ""));
    clicked("begin", () => this.#begin(Number(element("levels").value), ""));
    clicked("replay", () => this.#begin(this.#run.level, element("keys").value));
    clicked("play", () => this.#try(this.#text.typed(), element("text-fault")));
  }

  // Opens a game by the bytes of its text, and plays it.
  open(bytes) {
    this.close();
    this.#text.show(bytes);
    return this.#try(bytes, element("fault"));
  }

  // Ends the game.
  close() {
    this.#run.end();
    this.#checking.end();
    this.#clear();
  }

  // Checks a text, and plays it where it is a game. Else its fault is told in that element, and the game before goes on.
  async #try(bytes, told) {
    told.textContent = "";
    const checked = await this.#wait(this.#checking.check(bytes));
    if (checked === null) return;
    this.#checking.end();
    if (checked.fault !== undefined) {
      told.textContent = harmlessLines(checked.fault);
      this.#text.mark(checked.fault);
      return;
    }
    this.#facts = checked.facts;
    this.#text.use(bytes);
    this.#board.begin(checked.facts);
    showPadOf(element("pad"), checked.facts.ignored_keys);
    this.#showGlyphs(checked.facts.glyphs);
    this.#showLevels(checked.beginsAtLevels ? checked.facts.levels : 1);
    await this.#begin(1, "");
  }

  // Begins the game at a level, and plays these keys.
  async #begin(level, keys) {
    this.#clear();
    const opening = await this.#wait(this.#run.begin(this.#text.bytes, level));
    if (opening === null) return;
    this.#isOpen = true;
    this.#take(opening);
    if (await this.#wait(this.#run.replay(keys, (answer) => this.#take(answer, true))) === null) return;
    this.#showKeys();
    this.#pump();
  }

  // Shows nothing of a game any more.
  #clear() {
    this.#isOpen = this.#hasMessage = false;
    this.#typed = [];
    this.#pacing.clear();
    this.#board.clear();
    for (const id of ["said", "level", "fault", "text-fault"]) element(id).textContent = "";
    element("next").hidden = element("stopped").hidden = true;
    element("shorter").hidden = false;
  }

  // Waits for a run's answer; null where it was ended before, or failed, which is told.
  async #wait(promise) {
    clearTimeout(this.#patience);
    const patience = setTimeout(() => this.#showWork(true), LONG);
    this.#patience = patience;
    try {
      return await promise;
    } catch (error) {
      if (!(error instanceof Ended)) this.#fail(error);
      return null;
    } finally {
      clearTimeout(patience);
      if (patience === this.#patience) this.#showWork(false);
    }
  }

  #showWork(isLong) {
    element("waiting").textContent = isLong ? "Working." : "";
    element("stop").disabled = !isLong;
  }

  // Keys -----------------------------------------------------------------------------------------------------------------------

  // A key was pressed. Whether it is one of the game's.
  #press(key, isRepeated) {
    if (!this.#isOpen) return false;
    const isTooMuch = isRepeated && (this.#typed.length > 0 || this.#run.isBusy);
    if (!isTooMuch && this.#pacing.hurry()) {
      this.#typed.push(key);
      this.#pump();
    }
    return true;
  }

  // Hands the next key to the run where that has answered all others. While a message waits only one key does anything.
  async #pump() {
    while (this.#isOpen && !this.#run.isBusy && this.#typed.length > 0) {
      const key = this.#typed.shift();
      if (!this.#pacing.hurry() || (this.#hasMessage && key !== ACT)) continue;
      const isDismissed = this.#hasMessage;
      const answer = await this.#wait(this.#run.type(key));
      this.#showKeys();
      if (answer === null) return;
      if (isDismissed) this.#say("", false);
      this.#take(answer);
    }
  }

  #stop() {
    this.#run.end();
    this.#checking.end();
    this.#typed = [];
    this.#isOpen = false;
    this.#pacing.hurry();
    this.#say("Stopped.", false);
    this.#showKeys();
    element("shorter").hidden = this.#run.keys === "";
    element("stopped").hidden = false;
  }

  #fail(error) {
    this.#run.end();
    this.#checking.end();
    this.#isOpen = false;
    element("fault").textContent = `The engine stopped: ${harmless(error.message)}`;
    element("stopped").hidden = false;
  }

  // What is shown ---------------------------------------------------------------------------------------------------------------

  // Shows what the program wrote. Keys that were typed before the next level is seen aren't played there.
  #take({ parts, isOver, said }, isReplay = false) {
    if (parts.some(({ kind }) => kind === "done")) this.#typed = [];
    this.#pacing.add(parts, !isReplay);
    if (!isOver) return;
    this.#isOpen = false;
    element("fault").textContent = harmlessLines(said);
    if (said !== "") element("stopped").hidden = false;
  }

  #show({ kind, text, rows }) {
    if (kind === "frame") {
      this.#board.draw(rows);
      if (this.#hasMessage) this.#say("", false);
    } else if (kind === "title") {
      document.title = element("title").textContent = harmless(text);
    } else if (kind === "level") {
      element("level").textContent = `Level ${text} of ${this.#facts.levels}`;
      this.#say("", false);
    } else if (kind === "message") {
      this.#say(text, true);
    } else if (kind === "done") {
      this.#say(`Level ${text}.`, false);
    } else {
      this.#end(text);
    }
  }

  #end(text) {
    this.#say(`${text[0].toUpperCase()}${text.slice(1)}.`, false);
    element("shorter").hidden = true;
    element("stopped").hidden = false;
  }

  // Tells something below the board; a message waits until the reader goes on.
  #say(text, isMessage) {
    this.#hasMessage = isMessage;
    element("said").textContent = harmless(text);
    element("next").hidden = !isMessage;
  }

  #showKeys() {
    element("keys").value = this.#run.keys;
    element("from").textContent = this.#run.level === 1 ? "" : ` from level ${this.#run.level} on`;
  }

  #showGlyphs(glyphs) {
    element("glyphs").replaceChildren(...glyphs.flatMap(({ glyph, objects }) => {
      const [term, meaning] = [document.createElement("dt"), document.createElement("dd")];
      term.textContent = harmless(glyph);
      meaning.textContent = harmless(objects.join(", "));
      return [term, meaning];
    }));
  }

  #showLevels(count) {
    element("levels").replaceChildren(...Array.from({ length: count }, (_, place) => new Option(String(place + 1))));
    element("level-part").hidden = count < 2;
  }
}

// Shows the parts of an output one after the other, so that a board is seen before another one takes its place.

// Milliseconds that a frame stays before the next one of the same key, and a won board before the next level.
const FRAME_STAYS = 80;
const WON_STAYS = 1000;
const WON_STAYS_LEAST = 300;

export class Pacing {
  #show;
  #isStill;
  #parts = [];
  #timer = null;
  #wonAt = null;

  // `show(part)` shows a part. `isStill()` says whether motion is to be reduced: then of frames only the last of a key is shown.
  constructor(show, isStill) {
    this.#show = show;
    this.#isStill = isStill;
  }

  // Shows these parts behind those that still wait; all at once where they aren't to be paced.
  add(parts, isPaced) {
    this.#parts.push(...parts);
    if (!isPaced) {
      this.#wait(null);
      this.#wonAt = null;
      this.#parts.splice(0).forEach((part) => this.#show(part));
    } else if (this.#timer === null) {
      this.#step();
    }
  }

  // Shows all that waits now, but for what comes behind a won board. Whether nothing waits any more.
  hurry() {
    if (this.#wonAt !== null) {
      if (performance.now() - this.#wonAt >= WON_STAYS_LEAST) this.#step();
      return false;
    }
    while (this.#parts.length > 0 && this.#wonAt === null) this.#showNext();
    if (this.#wonAt === null) this.#wait(null);
    return this.#wonAt === null;
  }

  // Forgets what waits.
  clear() {
    this.#parts = [];
    this.#wonAt = null;
    this.#wait(null);
  }

  #wait(milliseconds) {
    clearTimeout(this.#timer);
    this.#timer = milliseconds === null ? null : setTimeout(() => this.#step(), milliseconds);
  }

  #step() {
    this.#wait(null);
    this.#wonAt = null;
    while (this.#parts.length > 0 && this.#timer === null) {
      const part = this.#showNext();
      if (part.kind === "frame" && this.#parts[0]?.kind === "frame" && !this.#isStill()) this.#wait(FRAME_STAYS);
    }
  }

  // Shows the next part. A won board waits before what comes behind it.
  #showNext() {
    const part = this.#parts.shift();
    const isPassedOver = this.#isStill() && part.kind === "frame" && this.#parts[0]?.kind === "frame";
    if (!isPassedOver) this.#show(part);
    if (part.kind === "done" && this.#parts.length > 0) {
      this.#wonAt = performance.now();
      this.#wait(WON_STAYS);
    }
    return part;
  }
}

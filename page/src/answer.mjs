// What the program writes for a key, so far as a page shows it. Frames that nobody could follow are left out.

export class Answer {
  #parts = [];
  #frames = 0;
  #most;

  // At most so many frames are kept of those that follow one another.
  constructor(most) {
    this.#most = most;
  }

  add(part) {
    const isFrame = part.kind === "frame";
    if (isFrame && this.#frames === this.#most) this.#parts.splice(-this.#frames, this.#frames);
    this.#frames = !isFrame ? 0 : this.#frames === this.#most ? 1 : this.#frames + 1;
    this.#parts.push(part);
  }

  // What is kept; what comes later is another answer's.
  take() {
    const parts = this.#parts;
    this.#parts = [];
    this.#frames = 0;
    return parts;
  }
}

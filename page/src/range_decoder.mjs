// Bits that a range coder has packed, each with a probability that follows what came before. This is the lower half of LZMA.

const MODEL_BITS = 11;
const EVEN = 1 << (MODEL_BITS - 1);
const MOVE_BITS = 5;
const LEAST_RANGE = 2 ** 24;

// So many probabilities, each even.
export function probabilities(count) {
  return new Uint16Array(count).fill(EVEN);
}

export class RangeDecoder {
  #bytes;
  #place;
  #range = 0xffffffff;
  #code = 0;

  constructor(bytes, place) {
    this.#bytes = bytes;
    this.#place = place + 1;
    for (let count = 0; count < 4; count++) this.#code = (this.#code * 256 + this.#bytes[this.#place++]) >>> 0;
  }

  #fill() {
    if (this.#range >= LEAST_RANGE) return;
    this.#range = (this.#range * 256) >>> 0;
    this.#code = (this.#code * 256 + this.#bytes[this.#place++]) >>> 0;
  }

  // A bit with the probability at a place of these.
  bit(chances, place) {
    const chance = chances[place];
    const bound = (this.#range >>> MODEL_BITS) * chance;
    const isOne = this.#code >= bound;
    if (isOne) {
      this.#range -= bound;
      this.#code -= bound;
      chances[place] = chance - (chance >> MOVE_BITS);
    } else {
      this.#range = bound;
      chances[place] = chance + (((1 << MODEL_BITS) - chance) >> MOVE_BITS);
    }
    this.#fill();
    return isOne ? 1 : 0;
  }

  // Bits that are as likely as not, as a number.
  evenBits(count) {
    let number = 0;
    for (; count > 0; count--) {
      this.#range = this.#range >>> 1;
      const isOne = this.#code >= this.#range;
      if (isOne) this.#code -= this.#range;
      number = number * 2 + (isOne ? 1 : 0);
      this.#fill();
    }
    return number;
  }

  // A number of so many bits, the highest first. The probabilities of a bit depend on those above it.
  number(chances, start, count) {
    let node = 1;
    for (let bit = 0; bit < count; bit++) node = node * 2 + this.bit(chances, start + node);
    return node - (1 << count);
  }

  // The same, the lowest bit first.
  numberFromBelow(chances, start, count) {
    let node = 1;
    let number = 0;
    for (let place = 0; place < count; place++) {
      const bit = this.bit(chances, start + node);
      node = node * 2 + bit;
      number |= bit << place;
    }
    return number;
  }
}

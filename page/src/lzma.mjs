// Unpacks a file of LZMA (`.lzma`), in which the engine stands: it is a third smaller so than by gzip, which browsers unpack.
//
// Names are those of the format's description: a match repeats earlier bytes, a rep does so at one of the last four distances, and the
// state tells which kinds of items came last.
import { probabilities, RangeDecoder } from "./range_decoder.mjs";

const HEADER_LENGTH = 13;
const STATES = 12;
const FIRST_STATE_BEHIND_MATCH = 7;
const LEAST_LENGTH = 2;
const END = 2 ** 32 - 1;
const LITERAL_SIZE = 0x300;
// Distances: the slots of four lengths, those with bits of their own, and the lowest bits of far ones.
const SLOT_BITS = 6;
const FIRST_SLOT_WITH_BITS = 4;
const FIRST_FAR_SLOT = 14;
const ALIGN_BITS = 4;
const NEAR_DISTANCES = 115;
const POSITIONS = 16;

// The lengths of matches, or of reps.
class Lengths {
  #choices = probabilities(2);
  #low = probabilities(POSITIONS * 8);
  #middle = probabilities(POSITIONS * 8);
  #high = probabilities(256);

  next(decoder, position) {
    if (!decoder.bit(this.#choices, 0)) return decoder.number(this.#low, position * 8, 3);
    if (!decoder.bit(this.#choices, 1)) return 8 + decoder.number(this.#middle, position * 8, 3);
    return 16 + decoder.number(this.#high, 0, 8);
  }
}

class Distances {
  #slots = probabilities(4 << SLOT_BITS);
  #near = probabilities(NEAR_DISTANCES);
  #align = probabilities(1 << ALIGN_BITS);

  next(decoder, length) {
    const slot = decoder.number(this.#slots, Math.min(length, 3) << SLOT_BITS, SLOT_BITS);
    if (slot < FIRST_SLOT_WITH_BITS) return slot;
    const count = (slot >> 1) - 1;
    const first = (2 | (slot & 1)) * 2 ** count;
    if (slot < FIRST_FAR_SLOT) return first + decoder.numberFromBelow(this.#near, first - slot, count);
    const middle = decoder.evenBits(count - ALIGN_BITS) * 2 ** ALIGN_BITS;
    return first + middle + decoder.numberFromBelow(this.#align, 0, ALIGN_BITS);
  }
}

class Unpacking {
  #decoder;
  #literalBits;
  #literalMask;
  #positionMask;
  #literals;
  #isMatch = probabilities(STATES * POSITIONS);
  #isRep = probabilities(STATES);
  #isOlderRep = [probabilities(STATES), probabilities(STATES), probabilities(STATES)];
  #isLongRep = probabilities(STATES * POSITIONS);
  #lengths = new Lengths();
  #repLengths = new Lengths();
  #distances = new Distances();
  #reps = [0, 0, 0, 0];
  #state = 0;
  #place = 0;
  #whole;

  constructor(packed, length) {
    const properties = packed[0];
    this.#literalBits = properties % 9;
    const literalPositionBits = Math.floor(properties / 9) % 5;
    this.#literalMask = (1 << literalPositionBits) - 1;
    this.#positionMask = (1 << Math.floor(properties / 45)) - 1;
    this.#literals = probabilities(LITERAL_SIZE << (this.#literalBits + literalPositionBits));
    this.#decoder = new RangeDecoder(packed, HEADER_LENGTH);
    this.#whole = new Uint8Array(length);
  }

  run() {
    while (this.#place < this.#whole.length && this.#item()) { /* the next one */ }
    return this.#whole;
  }

  // Unpacks an item. Whether it wasn't the end.
  #item() {
    const position = this.#place & this.#positionMask;
    if (!this.#decoder.bit(this.#isMatch, this.#state * POSITIONS + position)) {
      this.#literal();
      return true;
    }
    const length = this.#decoder.bit(this.#isRep, this.#state) ? this.#rep(position) : this.#match(position);
    if (this.#reps[0] === END) return false;
    this.#copy(length);
    return true;
  }

  #literal() {
    const decoder = this.#decoder;
    const before = this.#place === 0 ? 0 : this.#whole[this.#place - 1];
    const kind = ((this.#place & this.#literalMask) << this.#literalBits) + (before >> (8 - this.#literalBits));
    const start = kind * LITERAL_SIZE;
    let node = 1;
    if (this.#state >= FIRST_STATE_BEHIND_MATCH) {
      const likely = this.#whole[this.#place - this.#reps[0] - 1];
      let isAsLikely = true;
      for (let place = 7; place >= 0 && isAsLikely; place--) {
        const wanted = (likely >> place) & 1;
        const bit = decoder.bit(this.#literals, start + ((1 + wanted) << 8) + node);
        node = node * 2 + bit;
        isAsLikely = bit === wanted;
      }
    }
    while (node < 0x100) node = node * 2 + decoder.bit(this.#literals, start + node);
    this.#whole[this.#place++] = node;
    this.#state = this.#state < 4 ? 0 : this.#state < 10 ? this.#state - 3 : this.#state - 6;
  }

  // A match at a new distance; its length.
  #match(position) {
    const length = this.#lengths.next(this.#decoder, position);
    this.#state = this.#state < FIRST_STATE_BEHIND_MATCH ? 7 : 10;
    this.#reps.pop();
    this.#reps.unshift(this.#distances.next(this.#decoder, length));
    return length + LEAST_LENGTH;
  }

  // A match at one of the last distances; its length.
  #rep(position) {
    const decoder = this.#decoder;
    let which = 0;
    while (which < 3 && decoder.bit(this.#isOlderRep[which], this.#state)) which++;
    if (which === 0 && !decoder.bit(this.#isLongRep, this.#state * POSITIONS + position)) {
      this.#state = this.#state < FIRST_STATE_BEHIND_MATCH ? 9 : 11;
      return 1;
    }
    this.#reps.unshift(...this.#reps.splice(which, 1));
    const length = this.#repLengths.next(decoder, position);
    this.#state = this.#state < FIRST_STATE_BEHIND_MATCH ? 8 : 11;
    return length + LEAST_LENGTH;
  }

  #copy(length) {
    const end = Math.min(this.#place + length, this.#whole.length);
    const back = this.#reps[0] + 1;
    for (; this.#place < end; this.#place++) this.#whole[this.#place] = this.#whole[this.#place - back];
  }
}

// The bytes that are packed in a file of LZMA, of which there are so many.
export function unpacked(packed, length) {
  return new Unpacking(packed, length).run();
}
